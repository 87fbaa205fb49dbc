"use strict";

/** A block stays as its TeX; the message says why. */
class Refused extends Error {}

module.exports = { Refused };
