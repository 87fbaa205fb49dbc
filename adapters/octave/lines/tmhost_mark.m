% Prints a marker, of which the session's line has the halves alone, and takes back what would stand before it.
function tmhost_mark (first, second)
  PS1 ("");
  PS2 ("");
  fdisp (stdout, [first second]);
end
