"""The interpreters that `prompted.py` knows: how each is started, what it is sent for a line, and how it writes formulas."""
import dataclasses
import os
import re
from typing import Callable, List, Tuple

import errors
from blocks import Part
from statements import as_it_is, closing, in_python, in_sh, in_bc, in_octave, in_r, in_maxima, in_m2, in_giac, in_yacas, in_gap, in_gnuplot, in_singular

COMMANDS = "COMMANDS"  # in words: the file of the commands, where the interpreter doesn't read them from its standard input
HERE = os.path.dirname(os.path.abspath(__file__))


# Each statement is shown as at Python's own prompt. A line has an empty input, and what it does to the streams ends with it.
PYTHON_LINE = """import sys, os, ast, builtins; sys.ps1 = sys.ps2 = ''
def tmhost_streams(names=globals(), sys=sys, os=os, ast=ast, process=os.getpid(), own=[os.dup(one) for one in range(3)], fault=os.environ['TMHOST_ERROR'].encode()):
    def line(text):
        try:
            nothing = os.open(os.devnull, os.O_RDONLY)
            os.dup2(nothing, 0)
            os.close(nothing)
            sys.stdin = open(0, closefd=False)
            for one in ast.parse(text, '<line>').body:
                exec(compile(ast.Interactive([one]), '<line>', 'single'), names)
        except BaseException:
            if os.getpid() == process: os.write(own[2], fault)
            raise
        finally:
            if os.getpid() != process: os._exit(0)
            os.dup2(own[0], 0)
    def mark(first, second):
        sys.ps1 = sys.ps2 = ''
        for stream in (1, 2):
            os.dup2(own[stream], stream)
        os.write(1, (first + second + '\\n').encode())
    return line, mark

builtins.tmhost_line, builtins.tmhost_mark = tmhost_streams(); del tmhost_streams
"""

# Where a line has sent the output elsewhere, the markers come yet. `$?` stays what it was.
SH_MARKS = "exec 199>&1; tmhost_marks() { local status=$?; PS1= PS2=; builtin printf '%s%s\\n' \"$@\" >&199; return $status; }"

# Prints the value of each expression, and leaves the last as R's own `.Last.value`, whose binding is locked. Errors and warnings of an
# expression are those of no call, as at R's own prompt. A marker goes where no `sink` takes it.
R_LINE = r"""local({
    no_input <- function(...) stop("a line has no input of its own", call. = FALSE)
    put <- function(name, value, place) {
        unlockBinding(name, place)
        assign(name, value, envir = place)
        lockBinding(name, place)
    }
    own_scan <- scan
    without_file <- function(file = "", what = double(), nmax = -1L, n = -1L, sep = "", ..., text) {
        if (missing(text) && is.character(file) && identical(file, "")) no_input()
        call <- sys.call()
        call[[1L]] <- own_scan
        eval(call, parent.frame())
    }
    own_stdin <- stdin
    no_stdin <- function() if (identical(sys.function(-1L), parse)) own_stdin() else no_input()
    put("readline", no_input, baseenv())
    put("stdin", no_stdin, baseenv())
    put("scan", without_file, baseenv())
    unlockBinding(".Last.value", baseenv())
    is_own <- function(reported) identical(conditionCall(reported), quote(eval(one, globalenv())))
    without_call <- function(reported) {
        reported["call"] <- list(NULL)
        reported
    }
    parsed <- function(text) tryCatch(parse(text = text, keep.source = TRUE), error = function(reported) {
        words <- sub("^<text>:[0-9]+:[0-9]+: ", "", conditionMessage(reported))
        stop(words, call. = FALSE)
    })
    fault <- Sys.getenv("TMHOST_ERROR")
    faults <- 0
    tell_fault <- function(count) if (sink.number("message") == 2L) {
        cat(rep(fault, count), sep = "", file = stderr())
        faults <<- faults + count
    }
    line <- function(text) {
        faults <<- 0
        withCallingHandlers(evaluated(text), error = function(reported) tell_fault(1 + faults %% 2))
        if (faults %% 2) tell_fault(1)
        invisible(.Last.value)
    }
    evaluated <- function(text) {
        on.exit(options(echo = FALSE, error = if (is.null(getOption("error"))) expression(NULL) else getOption("error")))
        for (one in parsed(text)) {
            reported <- withCallingHandlers(
                withVisible(eval(one, globalenv())),
                error = function(reported) if (is_own(reported)) stop(without_call(reported)),
                warning = function(reported) if (is_own(reported)) {
                    warning(without_call(reported))
                    invokeRestart("muffleWarning")
                })
            assign(".Last.value", reported$value, envir = baseenv())
            if (reported$visible) print(reported$value)
        }
    }
    names <- function(word) {
        last <- .Last.value
        found <- utils::apropos(paste0("^", gsub(".", "[.]", word, fixed = TRUE)), ignore.case = FALSE)
        base::cat(found, "", sep = "\n")
        invisible(last)
    }
    mark <- function(first, second) {
        last <- .Last.value
        number <- sink.number("message")
        if (number != 2L) {
            sink(type = "message")
            on.exit(sink(getConnection(number), type = "message"))
        }
        cat(first, second, "\n", sep = "", file = stderr())
        invisible(last)
    }
    tools::Rd2txt_options(underline_titles = FALSE)
    options(error = expression(NULL), showErrorCalls = FALSE, keep.source = TRUE, tmhost.line = line, tmhost.mark = mark, tmhost.names = names)
}, envir = new.env(parent = baseenv()))"""


# Evaluates what Maxima reads from a text as if it were typed. A question of Maxima's own is an error.
MAXIMA_LINE = """:lisp (progn
    (defun tmhost-line (&rest lines)
        (let* ((*standard-input* (make-concatenated-stream)) (*query-io* (make-two-way-stream *standard-input* *standard-output*)))
            (with-input-from-string (text (format nil "~{~a~%~}" lines)) (continue :stream text)))
        'tmhost-done)
    (defun tmhost-mark (&rest halves) (format t "~{~a~}~%" halves) nil)
    (defun tmhost-no-input (&rest words) (declare (ignore words)) (merror "a line has no input of its own"))
    (let ((own #'merror) (screen *standard-output*))
        (defun merror (&rest words)
            (unless (or errcatch *mdebug*) (format screen "~&FAULT"))
            (apply own words)))
    (dolist (name '($read $readonly $break)) (remprop name 'mfexpr*) (setf (symbol-function name) #'tmhost-no-input))
    (let ((own #'$system)) (defun $system (&rest words) (funcall own (format nil "{ ~{~a~}~%} </dev/null" words))))
    (defun retrieve (question flag) (declare (ignore flag)) (if question (displa question)) (merror "a line has no input of its own")))"""


# R's device draws to a folder, a file for each page. Those that a line leaves open are closed, and not what the user has opened.
R_PICTURES = """if (capabilities("cairo")) local({
    count <- 0
    draw <- function(...) {
        count <<- count + 1
        grDevices::svg(paste0("FOLDER/", sprintf("%05d", count), "-%05d.svg"), width = 6, height = 4.5)
    }
    close <- function() {
        last <- .Last.value
        for (one in grDevices::dev.list())
            if (identical(dirname(as.character(attr(.Devices[[one]], "filepath"))), "FOLDER")) grDevices::dev.off(one)
        invisible(last)
    }
    options(device = draw, tmhost.close = close)
}) else options(tmhost.close = function() invisible(.Last.value))"""


# Plots of Maxima go to a folder, a file for each, but where a plot says its own. The value of one that went there isn't its files' names, which no
# other run would have.
MAXIMA_PICTURES = """:lisp (let ((count 0))
    (dolist (name '($plot2d $plot3d $contour_plot))
        (let ((own (symbol-function name)))
            (setf (symbol-function name) #'(lambda (&rest words)
                (let* ((file (format nil "FOLDER/~5,'0d.svg" (incf count))) (value nil))
                    (mfuncall '$set_plot_option (list '(mlist) '$plot_format '$gnuplot))
                    (mfuncall '$set_plot_option (list '(mlist) '$svg_file file))
                    (setf value (apply own words))
                    (if (probe-file file) '$done value))))))
    nil)"""


# Formulas of Maxima: values but texts and definitions, in the words of LaTeX and not of plain TeX.
MAXIMA_LATEX = r""":lisp (progn
    (defun tex-mquotient (x l r)
        (append (tex (cadr x) (append l '("\\frac{")) nil 'mparen 'mparen) (tex (caddr x) '("}{") (cons "}" r) 'mparen 'mparen)))
    (defun tex-choose (x l r)
        (append (tex (cadr x) (append l '("\\binom{")) nil 'mparen 'mparen) (tex (caddr x) '("}{") (cons "}" r) 'mparen 'mparen)))
    (defun tex-matrix (x l r)
        (append l '("\\begin{pmatrix}") (tex-list (mapcar (lambda (row) (cons '(tmhost-row) (cdr row))) (cdr x)) nil '("\\end{pmatrix}") "\\\\ ") r))
    (defun tex-tmhost-row (x l r) (append l (tex-list (cdr x) nil nil "&") r))
    (setf (get 'tmhost-row 'tex) 'tex-tmhost-row)
    (defun tmhost-is-text (value)
        (or (stringp value) (and (consp value) (consp (car value)) (not (eq (caar value) 'mrat))
            (or (member (caar value) '(mdefine mdefmacro lambda mprog mprogn mdo mdoin mcond)) (some #'tmhost-is-text (cdr value))))))
    (defun tmhost-display (form &aux (value (car (last form))) (*alt-display1d* nil))
        (if (or (not (eq (caar form) 'mlabel)) (member value '(t nil $done)) (tmhost-is-text value)) (displa form)
            (format t "~&MARK~aMARK~%" (mfuncall '$tex1 value))))
    (setf *alt-display1d* #'tmhost-display))"""

# A line of Macaulay2 is evaluated as a text; only its value is shown, and it stays what `oo` is.
M2_BEGINS = (
    "clearEcho stdio; tmhostLine = text -> value text; protect symbol tmhostLine; tmhostMode = symbol tmhostMode;",
    'ZZ#{tmhostMode,InputPrompt} = ZZ#{tmhostMode,InputContinuationPrompt} = number -> "";',
    "Thing#{tmhostMode,BeforePrint} = Thing#{tmhostMode,AfterPrint} = Thing#{tmhostMode,NoPrint} = Thing#{tmhostMode,AfterNoPrint} = identity;",
    "Nothing#{tmhostMode,Print} = identity; Thing#{tmhostMode,Print} = value -> << value << endl; topLevelMode = tmhostMode;",
)
M2_LATEX = (
    'tmhostTex = value -> (if instance(value, String) or instance(value, Function) then "" else try tex value else "");',
    'tmhostIsFormula = text -> instance(text, String) and match("^[$][^$]+[$]$", text);',
    "protect symbol tmhostTex; protect symbol tmhostIsFormula;",
    'Thing#{tmhostMode,Print} = value -> (text := tmhostTex value; if tmhostIsFormula text then << "MARK" << text << "MARK" << endl else << value << endl);',
)

# A line of gap is evaluated as a text, and its values are shown as at gap's own prompt: those of statements that end in one semicolon.
GAP_LINE = """
    BindGlobal("tmhostShow", function(value, is_shown)
        if IsBound(last2) then last3 := last2; fi;
        if IsBound(last) then last2 := last; fi;
        last := value;
        if is_shown then View(value); Print("\\n"); fi;
    end);
    BindGlobal("tmhostLine", function(text)
        local stream, reported, at;
        stream := InputTextString(text);
        repeat
            reported := READ_COMMAND_REAL(stream, false);
            at := PositionStream(stream);
            if Length(reported) > 1 then tmhostShow(reported[2], at < 2 or text{[at - 1, at]} <> ";;"); fi;
        until not reported[1] or IsEndOfStream(stream);
    end);
    BindGlobal("tmhostNoInput", function(arg) Error("a line has no input of its own"); end);
    BindGlobal("tmhostExec", function(arg)
        Process(DirectoryCurrent(), Filename(DirectoriesSystemPrograms(), "sh"), InputTextNone(), OutputTextUser(),
            ["-c", JoinStringsWithSeparator(List(arg, String), " ")]);
    end);
    MakeReadWriteGlobal("last"); MakeReadWriteGlobal("last2"); MakeReadWriteGlobal("last3");
    MakeReadWriteGlobal("InputTextUser"); InputTextUser := tmhostNoInput;
    MakeReadWriteGlobal("Exec"); Exec := tmhostExec;
    SetUserPreference("Pager", "cat"); SetUserPreference("PagerOptions", []);
"""

GIAC_LATEX = (
    "tmhost_line(tmhost_text):={local v; v:=expr(tmhost_text); "
    'if (type(v)==DOM_STRING or type(v)==DOM_FUNC) {return v;} print("MARK"+latex(v)+"MARK"); return "tmhost-done";}'
)


@dataclasses.dataclass(frozen=True)
class Profile:
    """How an interpreter is started and spoken to. In `marks`, {0} and {1} are the halves of the marker. What is sent beside the
    lines leaves the interpreter's last value and its numbers of lines as they are."""

    words: List[str]  # the program and its words
    marks: str  # the line that prints the marker
    prompt: bytes  # what the worksheet shows before an input
    begins: Tuple[str, ...] = ()  # lines that it is sent first
    statement: Callable[[bytes], bytes] = as_it_is  # what it is sent for a line
    noise: bytes = b""  # what of an answer is left out: its own prompts, where they can't be turned off
    ends: bytes = b"\n"  # what stands after the marker
    pictures: Tuple[str, ...] = ()  # lines that make it draw to the folder FOLDER
    before: str = ""  # what it is sent before a line, and after it, where it does
    after: str = ""
    closing: str = ""  # the same, before the marker in its line, so that a line that takes one for its input takes both
    latex: Tuple[str, ...] = ()  # lines that make it write a value as MARK, its TeX and MARK, a name of random bits
    again: bytes = rb"(?!)"  # a line that starts the interpreter again, as it was at first
    input: bytes = rb"(?!)"  # what of a line would wait for input, and can't be made an error in the interpreter itself
    names: str = ""  # the line that prints the names which begin with the word {0}; empty where there is none
    word: str = r"(?<![\w.])[A-Za-z_]\w*\Z"  # such a word at the end of a text
    errors: bytes = rb"(?!)"  # errors in what it says, where it doesn't write FAULT before one

    def begins_again(self, line: bytes) -> bool:
        return bool(re.fullmatch(self.again, line.strip()))

    def refuses(self, line: bytes) -> bool:
        return bool(re.search(self.input, line))

    def reported(self, text: bytes) -> List[Part]:
        """A text, and the errors in it."""
        return errors.reported(text, self.errors)


PROFILES = {
    "python": Profile(["python3", "-q", "-i", "-u"], "tmhost_mark('{0}', '{1}')", b">>> ", (PYTHON_LINE,), in_python),
    "sh": Profile(
        ["bash", "--norc", "--noprofile", "--noediting", "-i", "+m"],
        "{{ tmhost_marks {0} {1}; }} 2>/dev/null",
        b"$ ",
        ("PS1=; PS2=; set +H; set +o history", SH_MARKS),
        in_sh,
        errors=errors.SH,
    ),
    "bc": Profile(["bc", "-q", "-l"], 'print "{0}", "{1}\\n"', b"", (), in_bc, input=rb"\bread\s*\(", errors=errors.BC),
    "octave": Profile(
        ["octave-cli", "-q", "--no-init-file", "--interactive", "--no-line-editing", "--no-history"],
        "tmhost_mark ('{0}', '{1}')",
        b"> ",
        ("PS1 (''); PS2 (''); more off;", f"warning ('off', 'Octave:shadowed-function'); addpath ('{HERE}/octave/lines');"),
        in_octave,
        latex=("pkg load symbolic; sym (0);", f"addpath ('{HERE}/octave/formulas')"),
        pictures=("warning ('off', 'Octave:gnuplot-graphics'); warning ('off', 'print:nogs'); graphics_toolkit gnuplot; set (0, 'defaultfigurevisible', 'off');",),
        after="tmhost_draw ('FOLDER')",
        names="completion_matches ('{0}')",
    ),
    "R": Profile(
        ["R", "--no-save", "--no-restore", "--no-echo", "--file=" + COMMANDS],
        'getOption("tmhost.mark")("{0}", "{1}")',
        b"> ",
        (R_LINE,),
        in_r,
        pictures=(R_PICTURES,),
        after='getOption("tmhost.close")()',
        names='getOption("tmhost.names")("{0}")',
        word=r"(?<![\w.$@])(?<!::)[A-Za-z][\w.]*\Z",
        errors=errors.R,
    ),
    "gap": Profile(["gap", "-q", "-b", "-n", "-T"], 'Print("{0}", "{1}\\n");', b"gap> ", (" ".join(GAP_LINE.split()),), in_gap, errors=errors.GAP),
    "maxima": Profile(
        ["maxima", "--very-quiet"],
        ':lisp (|TMHOST-MARK| "{0}" "{1}")',
        b"",
        (":lisp (setf $display2d nil (gethash '$display2d *variable-initial-values*) nil)", " ".join(MAXIMA_LINE.split())),
        in_maxima,
        rb"\n?TMHOST-DONE(?=\n?(?:\(dbm:\d+\) )?\Z)",
        b"\nNIL",
        latex=(" ".join(MAXIMA_LATEX.split()),),
        pictures=(" ".join(MAXIMA_PICTURES.split()),),
        names=':lisp (progn (dolist (s (cdr (meval (list (list (quote $apropos)) "{0}")))) (format t "~%~a" ($sconcat s))) (values))',
        word=r"(?<![\w%?])[A-Za-z]\w*\Z",
        errors=errors.MAXIMA,
    ),
    "M2": Profile(
        ["M2", "-q", "--silent", "--no-readline", "--no-debug", "--no-tty", "--no-prompts"],
        '(<< "{0}" << "{1}" << endl; null)',
        b"> ",
        M2_BEGINS,
        in_m2,
        latex=M2_LATEX,
        again=rb"restart\s*;?",
        errors=errors.M2,
    ),
    "giac": Profile(
        ["giac", "--sage"],
        'print("{0}"+"{1}")',
        b"> ",
        ("tmhost_line(tmhost_text):=expr(tmhost_text)",),
        in_giac,
        rb'\A(?:\d+>> )?[^\n]*\n|(?:"tmhost-done"\n)?\d+>> print\([^\n]*\n\Z',
        b"\n0\n",
        latex=(GIAC_LATEX,),
        again=rb"restart\s*(?:\(\s*\))?\s*[;:]*",
        input=rb"\b(?:input|InputStr|Input|textinput|saisir|saisir_chaine)\s*\(",
        errors=errors.GIAC,
    ),
    "singular": Profile(
        ["Singular", "-q", "--no-rc", "--no-warn"], 'dbprint(1, "{0}" + "{1}");', b"> ", (), in_singular,
        errors=errors.SINGULAR,
    ),
    "gnuplot": Profile(
        ["gnuplot"],
        'printerr "{0}" . "{1}"',
        b"gnuplot> ",
        ("set terminal dumb",),
        in_gnuplot,
        pictures=("set terminal svg",),
        before="""eval GPVAL_OUTPUT eq "" ? "set output 'FOLDER/drawn'" : ''""",
        closing="eval GPVAL_OUTPUT eq 'FOLDER/drawn' && !(exists('GPVAL_MULTIPLOT') && GPVAL_MULTIPLOT) ? 'set output' : ''; ",
        errors=errors.GNUPLOT,
    ),
    "yacas": Profile(
        ["yacas", "-pc"],
        '[ WriteString("{0}"); WriteString("{1}"); NewLine(); ];',
        b"In> ",
        (),
        in_yacas,
        rb"(?m:^)(?:In> |Out> )+|(?<= )Out> ",
        b"\nOut> True\n",
        errors=errors.YACAS,
    ),
}
