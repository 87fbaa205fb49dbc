"""Requests of completions for each adapter that answers them, with what `tmhost` prints of the answers; `try` asks for them.

The cursor is at the `|`. Of an answer that begins with `..` it is what the answer has somewhere.
"""
import dataclasses
from typing import Dict, List, Tuple

Case = Tuple[str, str]
NONE = '""'


@dataclasses.dataclass(frozen=True)
class Completing:
    """What is asked of an adapter, after a line."""

    line: str
    cases: List[Case]
    slow: str = ""  # a line of two seconds, where an interrupt would end the interpreter


# The line makes names that are no words, and objects whose own functions would print, or never come back.
PYTHON_LINE = "\u2028".join([
    "import os, collections, enum",
    "alpha = alpine = 1; über = 2; _hidden = 3; text = 'a'; many = {}",
    "globals().update({'hostile\"': 1, 'hostile\\\\': 1, 'hostile\\x05\\x02': 1, 'hostile b': 1, 'hostile\\n': 1, 'hostile' + 'x' * 300: 1, 7: 1})",
    "def function(argument): return argument",
    "class Kind:",
    "    shared = 1",
    "    def __init__(self): self.inner = self; self.words = text; self.folder = os",
    "    def method(self): return 1",
    "    @property",
    "    def computed(self): os._exit(1)",
    "    @staticmethod",
    "    def alone(): pass",
    "class Loud(Kind):",
    "    def __getattr__(self, name): os._exit(1)",
    "    def __dir__(self): os._exit(1)",
    "class Meta(type):",
    "    def __dir__(self): os._exit(1)",
    "    def __getattribute__(self, name): os._exit(1)",
    "class Made(metaclass=Meta): visible = 1",
    "class Slots: __slots__ = ('left', 'right')",
    "class Bad:",
    "    @property",
    "    def __dict__(self): os._exit(1)",
    "class Color(enum.Enum): RED = 1",
    "Pair = collections.namedtuple('Pair', 'first second'); pair = Pair(alpha, text)",
    "kind, loud, made, slots, bad = Kind(), Loud(), Made(), Slots(), Bad(); slots.left = kind",
])
PYTHON: List[Case] = [
    ("alp|", '"alp" "ha" "ine"'), ("alph|", '"alph" "a"'), ("alpha|", '"alpha" ""'), ("al|pha", '..ha" "pine"'), ("x = alp|", '"alp" "ha" "ine"'), ("alpha + alp|ine", '"alp" "ha" "ine"'),
    ("über|", '"über" ""'), ("ü|b", '"ü" "ber"'), ("'é'; alp|", '"alp" "ha" "ine"'), ("1\u2028alp|", '"alp" "ha" "ine"'), ("alpha\u2028über\u2028alph|\u2028alpha", '"alph" "a"'), ("'\u2028\\\"'; alph|", '"alph" "a"'),
    ("_hid|", '"_hid" "den"'), ("func|", '"func" "tion"'), ("print(func|", '"func" "tion"'), ("prin|", '"prin" "t"'), ("ZeroD|", '"ZeroD" "ivisionError"'), ("whil|", '"whil" "e"'), ("lamb|", '"lamb" "da"'), ("hostile|", NONE), ("host|", NONE),
    ("|", NONE), ("   |", NONE), ("alpha |", NONE), ("(|", NONE), ("nothing_like_it|", NONE), ("1|", NONE), ("1.|", NONE), ("1.re|", NONE), ("0x|", NONE), (".|", NONE), ("..a|", NONE), ("f().a|", NONE), ("text[0].up|", NONE), ("'a'.up|", NONE),
    ("os.getcw|", '"getcw" "d" "db"'), ("os.path.joi|", '"joi" "n"'), ("os . path . joi|", '"joi" "n"'), ("os.path.nothing.a|", NONE), ("nothing.a|", NONE), ("len(os.path.spli|", '"spli" "t" "tdrive" "text"'),
    ("text.upp|", '"upp" "er"'), ("alpha.bit_c|", '"bit_c" "ount"'), ("many.setd|", '"setd" "efault"'), ("function.__na|", '"__na" "me__"'),
    ("kind.|", '"" "alone" "computed" "folder" "inner" "method" "shared" "words"'), ("kind.inn|", '"inn" "er"'), ("kind.inner.inner.wo|", '"wo" "rds"'), ("kind.words.upp|", '"upp" "er"'), ("kind.folder.getcwdb|", '"getcwdb" ""'), ("kind.__cl|", '"__cl" "ass__"'),
    ("kind.comp|", '"comp" "uted"'), ("kind.computed.a|", NONE), ("kind.computed.|", NONE), ("Kind.sha|", '"sha" "red"'), ("loud.|", '"" "alone" "computed" "folder" "inner" "method" "shared" "words"'), ("loud.unknown.|", NONE), ("loud.me|", '"me" "thod"'),
    ("Made.vis|", '"vis" "ible"'), ("made.vis|", '"vis" "ible"'), ("slots.|", '"" "left" "right"'), ("slots.left.meth|", '"meth" "od"'), ("slots.right.|", NONE), ("bad.|", NONE), ("Color.RE|", '"RE" "D"'), ("pair.fi|", '"fi" "rst"'),
]

# A line makes names of every kind, and gp's own words of the same beginning stay after them.
GP_LINE = "\u2028".join([
    "alphabet = 5; alphabetic = [1, 2]; zz_top(t) = t^2; zz_arrow = t -> t; zz_sum += 1; zz_set = 3; x.zz_own = x -> 7",
    "zz_wide = (1 +", "2)", 'zz_text = "zz_inside"; if (zz_compared == 3, 1); zz_less <= 2; print("zz_printed")',
])
GP: List[Case] = [
    ("alphab|", '"alphab" "et" "etic"'), ("alphabeti|", '"alphabeti" "c"'), ("alphabetic|", '"alphabetic" ""'), ("alphab|et", '"alphab" "et" "etic"'), ("2 + alphabeti| + 1", '"alphabeti" "c"'), ("sin(alphabeti|", '"alphabeti" "c"'), ("[1,alphabeti|", '"alphabeti" "c"'),
    ("zz_|", '"zz_" "arrow" "set" "sum" "text" "top" "wide"'), ("zz_t|", '"zz_t" "ext" "op"'), ("zz_i|", NONE), ("zz_c|", NONE), ("zz_l|", NONE), ("zz_p|", NONE), ("zz_o|", NONE), ("factorb|", '"factorb" "ack"'), ("fact|", '.."or" "orback"'), ("matker|", '.."" "int"'), ("Catal|", '"Catal" "an"'),
    ("Strch|", '"Strch" "r"'), ("polrootsr|", '"polrootsr" "eal"'), ("forprimes|", '"forprimes" "tep"'), ("ellin|", '.."it"'), ("x = ellini|", '"ellini" "t"'), ("a+b*ellini|", '"ellini" "t"'), ("{f(t) =\u2028 ellini|", '"ellini" "t"'), ("1\u2028ellini|\u2028 2", '"ellini" "t"'),
    ('"é"; ellini|', '"ellini" "t"'), ('"\\"\u2028"; ellini|', '"ellini" "t"'), ("\\p ellini|", '"ellini" "t"'), ("?ellini|", '"ellini" "t"'), ("??ellini|", '"ellini" "t"'), ("|", NONE), ("  |", NONE), ("(|", NONE), ("1+|", NONE), ("nothing_like_it|", NONE), ("é|", NONE), ("%|", NONE),
    ("1|", NONE), ("1.|", NONE), ("1.e|", NONE), ("1.5e|", NONE), ("12.p|", NONE), (".p|", NONE), ("+.p|", NONE), ("2ellini|", NONE), ("x1.disc|", '"disc" ""'), ("x.zz|", '"zz" "_own"'), ("x.zz_own.dis|", '"dis" "c"'), ("x.orde|", '"orde" "rs"'), ("x . orde|", '"orde" "rs"'),
    ("f(3).roo|", '"roo" "ts"'), ("v[1].roo|", '"roo" "ts"'), ("x.codi|", '"codi" "ff"'), ("x.et|", '"et" "a"'), ("x.a|", '"a" "1" "2" "3" "4" "6" "rea"'), ("x.|", '.."zkst"'), ("x.r1|", '"r1" ""'), ("x.ellini|", NONE), ("ellinit(x).dis|", '"dis" "c"'), ("x.no|", '"no" ""'),
]

# Of a value after a dot or a dollar nothing is reported, since it would have to be computed.
OCTAVE_LINE = "zz_top = 5; zz_alone = 1; zz_s.field = 1; function zz_made (), error ('run'), end"
OCTAVE: List[Case] = [
    ("zz_|", '"zz_" "alone" "made" "s" "top"'), ("zz_t|", '"zz_t" "op"'), ("zz_t|op", '"zz_t" "op"'), ("x = zz_t|", '"zz_t" "op"'), ("1 + zz_m|", '"zz_m" "ade"'), ("fclos|", '"fclos" "e"'), ("zeros (fclos|", '"fclos" "e"'), ("1;\u2028fclos|\u20282", '"fclos" "e"'),
    ("zz_s.f|", NONE), ("zz_s.|", NONE), ("zz_made.f|", NONE), ("zz_made ().f|", NONE), ("nothing_like_it|", NONE), ("|", NONE), (" |", NONE), ("(|", NONE), ("1|", NONE), ("1.|", NONE), ("1e|", NONE), ("é|", NONE), ('"\\"; fclos|', '"fclos" "e"'), ("'; fclos|", '"fclos" "e"'),
    ("zz_al|", '"zz_al" "one"'), ("zz_alone|", '"zz_alone" ""'), ("zz_al|one", '"zz_al" "one"'), ("zz_al|pha", '"zz_al" "one"'), ("[zz_t|", '"zz_t" "op"'),
    ("[1, zz_t|]", '"zz_t" "op"'), ("{zz_t|}", '"zz_t" "op"'), ("zz_top + zz_al|", '"zz_al" "one"'), ("zz_top' * zz_al|", '"zz_al" "one"'), ("if zz_t|", '"zz_t" "op"'),
    ("y(zz_t|)", '"zz_t" "op"'), ("@() zz_t|", '"zz_t" "op"'), ("x.y = zz_t|", '"zz_t" "op"'), ("zz_t|\u20281", '"zz_t" "op"'), ("1\u2028zz_al|one\u20282", '"zz_al" "one"'),
    ("'é'; zz_t|", '"zz_t" "op"'), ("printf ('%d', zz_t|", '"zz_t" "op"'), ("-zz_t|", '"zz_t" "op"'), ("!zz_t|", '"zz_t" "op"'), ("2*zz_t|", '"zz_t" "op"'), ("2zz_t|", NONE),
    ("zz_top.zz|", NONE), ("zz_s(1).f|", NONE), ("zz_s.field.x|", NONE), ("zz_tx|", NONE), ("ZZ_|", NONE), ("fclos|e", '"fclos" "e"'), ("x = @fclos|", '"fclos" "e"'),
    ("endfunctio|n", '"endfunctio" "n"'), ("persisten|t", '"persisten" "t"'), ("bitshif|", '"bitshif" "t"'), ("isspac|", '"isspac" "e"'), ("strtri|", '"strtri" "m"'),
    ("cellfu|", '"cellfu" "n"'), ("num2st|", '"num2st" "r"'), (" fclos|", '"fclos" "e"'), ("\tfclos|", '"fclos" "e"'), ("fclos| ", '"fclos" "e"'),
    ("a;fclos|;b", '"fclos" "e"'), ("zz_made(fclos|", '"fclos" "e"'), ("a = [1 2; zz_t|", '"zz_t" "op"'), ("\"é\"; zz_m|ade", '"zz_m" "ade"'), ("über|", NONE),
    ("zz_made|", '"zz_made" ""'), ("zz_s|", '"zz_s" ""'), ("~zz_t|", '"zz_t" "op"'), ("x=1;zz_t|op=2", '"zz_t" "op"'),
]
R_LINE = "zz.top <- 5; zz_alone <- 1; zz.list <- list(field = 1); zz_made <- function() stop('run'); makeActiveBinding('zz_active', function() quit(), globalenv()); assign('zz\"h', 1); assign('zz)h', 1); assign('zz\\\\h', 1); 7"
R: List[Case] = [
    ("zz|", '"zz" ".list" ".top" "_active" "_alone" "_made"'), ("zz.|", '"zz." "list" "top"'), ("zz.t|", '"zz.t" "op"'), ("zz.t|op", '"zz.t" "op"'), ("x <- zz.t|", '"zz.t" "op"'), ("1:zz.t|", '"zz.t" "op"'), ("read.tab|", '"read.tab" "le"'), ("c(read.tab|", '"read.tab" "le"'), ("1\u2028read.tab|\u20282", '"read.tab" "le"'),
    ("zz.list$f|", NONE), ("zz_active$f|", NONE), ("x@zz|", NONE), ("stats::med|", NONE), ("stats:::med|", NONE), ("nothing_like_it|", NONE), ("|", NONE), (" |", NONE), ("(|", NONE), ("1|", NONE), ("1e|", NONE), ("é|", NONE), ('"\\"; read.tab|', '"read.tab" "le"'), ("'; read.tab|", '"read.tab" "le"'),
    ("zz_al|", '"zz_al" "one"'), ("zz_alone|", '"zz_alone" ""'), ("zz_al|one", '"zz_al" "one"'), ("zz_al|pha", '"zz_al" "one"'), ("c(zz_al|", '"zz_al" "one"'),
    ("c(1, zz_al|)", '"zz_al" "one"'), ("list(a = zz_al|)", '"zz_al" "one"'), ("zz.top + zz_al|", '"zz_al" "one"'), ("if (zz_al|", '"zz_al" "one"'),
    ("function(x) zz_al|", '"zz_al" "one"'), ("x[zz_al|]", '"zz_al" "one"'), ("x[[zz_al|]]", '"zz_al" "one"'), ("-zz_al|", '"zz_al" "one"'), ("!zz_al|", '"zz_al" "one"'),
    ("2*zz_al|", '"zz_al" "one"'), ("2zz_al|", NONE), ("zz.l|", '"zz.l" "ist"'), ("zz.list|", '"zz.list" ""'), ("zz.list$|", NONE), ("zz.list$field|", NONE),
    ("zz.list@f|", NONE), ("zz_act|ive", '"zz_act" "ive"'), ("zz_active|", '"zz_active" ""'), ("zz_made|", '"zz_made" ""'), ("zz_made(read.tab|", '"read.tab" "le"'),
    ("Zz|", NONE), ("zzx|", NONE), ("'é'; zz_al|", '"zz_al" "one"'), ("1\u2028zz_al|one\u20282", '"zz_al" "one"'), ("zz_al|\u20281", '"zz_al" "one"'),
    ("read.tab|le", '"read.tab" "le"'), ("x <- read.tab|", '"read.tab" "le"'), ("~read.tab|", '"read.tab" "le"'), ("a;read.tab|;b", '"read.tab" "le"'),
    ("\tread.tab|", '"read.tab" "le"'), (" read.tab|", '"read.tab" "le"'), ("read.tab| ", '"read.tab" "le"'), ("strspli|", '"strspli" "t"'), ("toupp|", '"toupp" "er"'),
    ("vappl|", '"vappl" "y"'), ("Reduc|", '"Reduc" "e"'), ("nchar|", '"nchar" ""'), ("x$y$zz|", NONE), ("base::vappl|", NONE), ("über|", NONE), ("TRU|", NONE),
    ("zz.t|op=2", '"zz.t" "op"'), ("5 -> zz.t|", '"zz.t" "op"'),
]
MAXIMA_LINE = "zz_top: 5$ zz_alone: [1]$ zz_made(x) := error(\"run\")$ zzUp: 1$ zz\\\"h: 1$ zz\\)h: 1$ 7"
MAXIMA: List[Case] = [
    ("zz_|", '"zz_" "alone" "made" "top"'), ("zz_t|", '"zz_t" "op"'), ("zz_t|op", '"zz_t" "op"'), ("x: zz_t|", '"zz_t" "op"'), ("1+zz_m|", '"zz_m" "ade"'), ("zzU|", '"zzU" "p"'), ("zzu|", NONE), ("integrate_use|", '"integrate_use" "_rootsof"'), ("f(integrate_use|", '"integrate_use" "_rootsof"'),
    ("1;\u2028polydec|\u20282", '"polydec" "omp"'), ("polydec|", '"polydec" "omp"'), ("NI|", NONE), ("%p|", NONE), ("nothing_like_it|", NONE), ("|", NONE), (" |", NONE), ("(|", NONE), ("1|", NONE), ("1e|", NONE), ("é|", NONE), ('"\\"; polydec|', '"polydec" "omp"'), ("'polydec|", '"polydec" "omp"'),
    ("zz_al|", '"zz_al" "one"'), ("zz_alone|", '"zz_alone" ""'), ("zz_al|one", '"zz_al" "one"'), ("zz_al|pha", '"zz_al" "one"'), ("[zz_al|", '"zz_al" "one"'),
    ("[1, zz_al|]", '"zz_al" "one"'), ("f(1, zz_al|)", '"zz_al" "one"'), ("zz_top + zz_al|", '"zz_al" "one"'), ("if zz_al|", '"zz_al" "one"'), ("x[zz_al|]", '"zz_al" "one"'),
    ("-zz_al|", '"zz_al" "one"'), ("not zz_al|", '"zz_al" "one"'), ("2*zz_al|", '"zz_al" "one"'), ("2zz_al|", NONE), ("zz_a|lone", '"zz_a" "lone"'),
    ("zz_made|", '"zz_made" ""'), ("zz_made(zz_t|", '"zz_t" "op"'), ("ZZ_|", NONE), ("zzx|", NONE), ("\"é\"; zz_al|", '"zz_al" "one"'),
    ("1;\u2028zz_al|one;\u20282", '"zz_al" "one"'), ("zz_al|\u20281", '"zz_al" "one"'), ("zz_t|:1", '"zz_t" "op"'), ("block([a], zz_t|", '"zz_t" "op"'),
    ("zzU|p", '"zzU" "p"'), ("zzUp|", '"zzUp" ""'), ("polydec|omp", '"polydec" "omp"'), (" polydec|", '"polydec" "omp"'), ("\tpolydec|", '"polydec" "omp"'),
    ("polydec| ", '"polydec" "omp"'), ("a;polydec|;b", '"polydec" "omp"'), ("x:polydec|", '"polydec" "omp"'), ("'polydec|omp", '"polydec" "omp"'),
    ("''polydec|", '"polydec" "omp"'), ("diff(polydec|", '"polydec" "omp"'), ("lambda([x], polydec|", '"polydec" "omp"'), ("integrate_us|", '"integrate_us" "e_rootsof"'),
    ("?zz|", NONE), ("zz_top.zz_al|", '"zz_al" "one"'), ("zz_top^zz_al|", '"zz_al" "one"'), ("zz_top!+zz_al|", '"zz_al" "one"'), ("%zz_|", NONE),
    ("über|", NONE), ("ü|", NONE), ("zz|", '"zz" "Up" "_alone" "_made" "_top"'), ("makegamm|", '"makegamm" "a"'), ("trigsim|", '"trigsim" "p"'), ("ratcoe|", '"ratcoe" "f" "ff"'),
]
# What a metatable would answer isn't asked for.
LUA_LINE = "zz_top = 5; zz_alone = 1; zz_t = {field = 1, fn = print, [1] = 2, ['a b'] = 3, inner = {deep = 1}}; zz_made = setmetatable({own = 1}, {__index = function() os.exit() end})"
LUA: List[Case] = [
    ("zz_|", '"zz_" "alone" "made" "t" "top"'), ("zz_t|", '"zz_t" "" "op"'), ("zz_t|op", '"zz_t" "" "op"'), ("zz_t.|", '"zz_t." "field" "fn" "inner"'), ("zz_t.inner.d|", '"zz_t.inner.d" "eep"'), ("zz_t.inner.|", '"zz_t.inner." "deep"'),
    ("zz_made.o|", '"zz_made.o" "wn"'), ("zz_made.x|", NONE), ("zz_made.x.y|", NONE), ("zz_top.x|", NONE), ("string.for|", '"string.for" "mat"'), ("string.format|", '"string.format" ""'), ("f(string.for|)", '"string.for" "mat"'), ("whil|", '"whil" "e"'),
    ("1 + zz_to|", '"zz_to" "p"'), ("f(zz_to|)", '"zz_to" "p"'), ("'a'..zz_to|", '"zz_to" "p"'), ("zz_top..zz_al|", '"zz_al" "one"'), ("{zz_to|}", '"zz_to" "p"'), ("#zz_to|", '"zz_to" "p"'), ("1\u2028zz_al|one\u20282", '"zz_al" "one"'), ("'é'; zz_to|", '"zz_to" "p"'),
    ("('a'):up|", NONE), ("zz_t:fi|", NONE), ("f().zz|", NONE), ("f()[1].zz|", NONE), ("nothing_like_it|", NONE), ("|", NONE), (" |", NONE), ("(|", NONE), ("1|", NONE), ("1.|", NONE), ("1e|", NONE), ("é|", NONE), ("über|", NONE), ("2zz_to|", NONE), ('"\\"; zz_to|', '"zz_to" "p"'),
]
TCL_LINE = "set zz_top 5; set zz_alone 1; proc zz_made {} {exit}; array set zz_array {a 1}; namespace eval zz_space {proc inner {} {}}; set {zz h} 1"
TCL: List[Case] = [
    ("zz_|", '"zz_" "alone" "array" "made" "top"'), ("$zz_t|", '"zz_t" "op"'), ("puts $zz_t|op", '"zz_t" "op"'), ("${zz_t|}", '"zz_t" "op"'), ("[zz_m|]", '"zz_m" "ade"'), ("set x [zz_m|", '"zz_m" "ade"'), ("fconf|", '"fconf" "igure"'), ("fconfigure|", '"fconfigure" ""'),
    ("puts a; fconf|", '"fconf" "igure"'), ("1\u2028fconf|\u20282", '"fconf" "igure"'), ("zz_space::in|", NONE), ("::zz_t|", NONE), ("nothing_like_it|", NONE), ("|", NONE), (" |", NONE), ("{|", NONE), ("1|", NONE), ("é|", NONE), ("über|", NONE), ("2zz_t|", NONE), ('"\\"; fconf|', '"fconf" "igure"'),
]

COMPLETING: Dict[str, Completing] = {
    "python": Completing(PYTHON_LINE, PYTHON),
    "gp": Completing(GP_LINE, GP),
    "gp --text": Completing(GP_LINE, GP),
    "prompted.py octave": Completing(OCTAVE_LINE, OCTAVE),
    "prompted.py R": Completing(R_LINE, R),
    "prompted.py maxima": Completing(MAXIMA_LINE, MAXIMA),
    "prompted.py maxima --latex": Completing(MAXIMA_LINE, MAXIMA),
    "prompted.py lua": Completing(LUA_LINE, LUA),
    "prompted.py tcl": Completing(TCL_LINE, TCL, "after 2000"),
}
