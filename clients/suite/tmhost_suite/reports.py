"""What came of a run, for programs: TAP, JUnit's XML, lines of JSON, remarks for GitHub and GitLab."""
import dataclasses
import functools
import hashlib
import json
import os
import re
from typing import Callable, Dict, Iterator, List, NamedTuple, Optional
from xml.sax.saxutils import escape, quoteattr

from .cases import Case, Suite
from .diffs import diff
from .results import BROKEN, WITHOUT_ANSWER, WRONG, Result
from .rules import wrong_patterns

NO_XML = re.compile("[^\t\n\r -\ud7ff\ue000-\ufffd\U00010000-\U0010ffff]")


def printable(text: str) -> str:
    """Without what moves a terminal's cursor, changes its state, or ends a line for some reader of a report."""
    return "".join(c if c in "\n\t" or c.isprintable() else c.encode("unicode_escape").decode() for c in text)


@dataclasses.dataclass(frozen=True)
class Reported:
    """A case with what came of it. One that was skipped or not reached has no result."""

    suite: Suite
    case: Case
    verdict: str
    result: Optional[Result]

    @property
    def name(self) -> str:
        return f"{self.suite.path}:{self.case.line} {self.case.title}"

    @property
    def is_wrong(self) -> bool:
        return self.verdict in WRONG

    @property
    def is_error(self) -> bool:
        """Whether what came is an error, as its interpreter reports it."""
        return bool(self.result and self.result.is_error)

    @property
    def end(self) -> str:
        """Why its interpreter ended in it, as `Ended`; empty where it didn't."""
        return self.result.end if self.result else ""

    @property
    def over(self) -> float:
        """The seconds that it had, where its time was over; 0 where it wasn't."""
        return self.result.over if self.result else 0.0

    @property
    def said(self) -> str:
        """The last lines that its interpreter had written before it ended, as one."""
        return self.result.said if self.result else ""

    @property
    def is_lost(self) -> bool:
        """Whether no answer came to a field of it."""
        return bool(self.result and self.result.is_lost)

    @property
    def has_started(self) -> bool:
        """Whether its interpreter came so far that it could have given an answer."""
        return not self.result or self.result.has_started

    @property
    def began_anew(self) -> bool:
        return bool(self.result and self.result.began_anew)

    @property
    def ended_before(self) -> Optional[int]:
        """The line of the case that ended the interpreter of its session before, with which went what it may need. None where all is there."""
        at = self.result.after_end if self.result else None
        return None if at is None else self.suite.cases[at].line

    @property
    def lost_as(self) -> str:
        """In a word or two why no answer came to a field of it, as `ended` or `over 5 s`; empty where all came."""
        last = self.got.rpartition("\n")[2] if self.is_lost else ""
        return last[2:3].lower() + last[3:]

    @property
    def why_none(self) -> str:
        """In a line why no answer came: how its interpreter ended, and what it had written last, or that its time was over."""
        if self.over:
            return f"its time was over ({self.over:g} s)"
        return f"its interpreter ended ({self.end})" + (f": {self.said}" if self.said else "") if self.end else ""

    @property
    def got(self) -> str:
        return self.result.got if self.result else ""

    @property
    def errors(self) -> str:
        return self.result.errors if self.result else ""

    @property
    def seconds(self) -> float:
        return self.result.seconds if self.result else 0.0

    @property
    def remark(self) -> str:
        """What is said of it beside its verdict."""
        marks = self.case.marks
        was_skipped = self.verdict == "skip" and self.result is not None
        parts = [marks.skip or "", marks.xfail or "", (marks.may_fail or "") if self.verdict == "xfail" else "", self.got.split("\n")[0] if was_skipped else ""]
        if self.result and self.result.tries > 1:
            parts.append(f"tried {self.result.tries} times")
        if self.began_anew or self.ended_before is not None:
            after = "" if self.ended_before is None else f" after line {self.ended_before}"
            parts.append(f"in an interpreter that was started again{after}")
        if self.is_wrong and not self.has_started:
            parts.append("its interpreter didn't start")
        if self.verdict == "differs":
            any_spaces = self.suite.rules_of(self.case).any_spaces
            parts += [why for text in (self.case.wanted, self.case.errors) for why in wrong_patterns(text or "", any_spaces)]
        return ", ".join(part for part in parts if part)

    @property
    def differs_in_text(self) -> bool:
        """Whether it isn't only in its errors, where these are apart, that it differs."""
        return not self.suite.rules_of(self.case).is_wanted(self.case.wanted, self.got, set())

    @functools.cached_property
    def diff(self) -> List[str]:
        """From what was wanted to what came, and after that the same of errors that are apart."""
        if not self.is_wrong or self.verdict == "xpass":
            return []
        found = self._diff_of(self.case.wanted, self.got, "")
        rules = self.suite.rules_of(self.case)
        if rules.apart and not rules.is_wanted(self.case.errors, self.errors, set()):
            found = (found if self.differs_in_text else []) + self._diff_of(self.case.errors, self.errors, " error")
        return found

    def _diff_of(self, wanted: Optional[str], came: str, what: str) -> List[str]:
        return diff(wanted, came, self.suite.rules_of(self.case), what)


class SuiteTrouble(NamedTuple):
    """Why a suite wasn't run to its end, or what came of it wasn't accepted."""

    path: str
    why: str


def paths_in(all_reported: List[Reported], troubles: List[SuiteTrouble]) -> List[str]:
    return list(dict.fromkeys([*(reported.suite.path for reported in all_reported), *(trouble.path for trouble in troubles)]))


def of_path(all_reported: List[Reported], path: str) -> List[Reported]:
    return [reported for reported in all_reported if reported.suite.path == path]


def reported_of(suite: Suite, results: "dict[int, Result]", is_chosen: Callable[[int, Case], bool]) -> List[Reported]:
    reported: List[Reported] = []
    for at, case in enumerate(suite.cases):
        if case.is_own:
            continue
        result = results.get(at)
        verdict = "skip" if case.marks.skip is not None and is_chosen(at, case) else result.verdict if result else "out"
        reported.append(Reported(suite, case, verdict, result))
    return reported


def broken_in(suite: Suite, results: "dict[int, Result]") -> Iterator[SuiteTrouble]:
    """What went wrong of that which the tool does around the cases of another form."""
    for at, case in enumerate(suite.cases):
        if case.is_own and at in results and results[at].verdict == BROKEN:
            what = "taking it down" if case.marks.is_teardown else "setting it up"
            left = "" if case.marks.is_teardown else ", so none of its cases was run"
            yield SuiteTrouble(suite.path, f"{what} went wrong{left}: {printable(results[at].got)}")


def tap_text(text: str) -> str:
    return re.sub(r"[\\#]", r"\\\g<0>", printable(text.replace("\n", " ")))


def tap_points(shown: List[Reported], troubles: List[SuiteTrouble]) -> Iterator[str]:
    """The plan, and a point for each case, and for each suite that wasn't run to its end."""
    yield f"1..{len(shown) + len(troubles)}"
    for number, reported in enumerate(shown, 1):
        remark = printable(reported.remark)
        directive = {"skip": f" # SKIP {remark}", "xfail": f" # TODO {remark}", "xpass": f" # TODO {remark}"}.get(reported.verdict, "")
        yield f"{'not ok' if reported.verdict in ('differs', 'new', *WITHOUT_ANSWER, 'xfail') else 'ok'} {number} - {tap_text(reported.name)}{directive.rstrip()}"
        if reported.result:
            yield "  ---"
            yield f"  verdict: {reported.verdict}"
            yield f"  duration_ms: {reported.seconds * 1000:.3f}"
            if reported.end:
                yield f"  end: {json.dumps(reported.end)}"
                yield f"  said: {json.dumps(reported.said)}"
            if reported.over:
                yield f"  over: {reported.over:g}"
            if reported.diff:
                yield "  diff: |"  # whose first line is `--- wanted`: `prove` knows no indentation in numbers
                yield from ("    " + printable(line) for line in reported.diff)
            yield "  ..."
    for number, trouble in enumerate(troubles, len(shown) + 1):
        yield f"not ok {number} - {tap_text(f'{trouble.path}: {trouble.why}')}"


def in_points(all_reported: List[Reported]) -> List[Reported]:
    return [reported for reported in all_reported if reported.verdict not in ("out", "setup")]


def tap(all_reported: List[Reported], troubles: List[SuiteTrouble]) -> Iterator[str]:
    """TAP (testanything.org) of version 13, which Perl's `prove` reads; it refuses version 14."""
    yield "TAP version 13"
    yield from tap_points(in_points(all_reported), troubles)


def tap14(all_reported: List[Reported], troubles: List[SuiteTrouble]) -> Iterator[str]:
    """The same of version 14, in which each suite is a subtest."""
    yield "TAP version 14"
    paths = paths_in(all_reported, troubles)
    yield f"1..{len(paths)}"
    for number, path in enumerate(paths, 1):
        own, own_troubles = in_points(of_path(all_reported, path)), [one for one in troubles if one.path == path]
        is_good = not own_troubles and not any(reported.is_wrong for reported in own)
        yield f"# Subtest: {tap_text(path)}"
        yield from ("    " + line for line in tap_points(own, own_troubles))
        yield f"{'ok' if is_good else 'not ok'} {number} - {tap_text(path)}"


def xml_text(text: str) -> str:
    return escape(NO_XML.sub("\N{REPLACEMENT CHARACTER}", text))


def xml_attribute(text: str) -> str:
    return quoteattr(NO_XML.sub("\N{REPLACEMENT CHARACTER}", text))


def junit(all_reported: List[Reported], troubles: List[SuiteTrouble]) -> Iterator[str]:
    """One `testsuite` for each text, one `testcase` for each case, and for each text that wasn't run to its end."""
    yield '<?xml version="1.0" encoding="UTF-8"?>'
    yield "<testsuites>"
    for path in paths_in(all_reported, troubles):
        yield from junit_suite(path, in_points(of_path(all_reported, path)), [one.why for one in troubles if one.path == path])
    yield "</testsuites>"


def lasting_names(own: List[Reported]) -> Iterator[str]:
    """A name for each case of a text: its own one, which stays whatever the text has above it, or its first line, and which one it is of several with that."""
    count = {reported.case.marks.name: 1 for reported in own if reported.case.marks.name is not None}
    for case in (reported.case for reported in own):
        if case.marks.name is None:
            count[case.title] = count.get(case.title, 0) + 1
        yield case.title if case.marks.name is not None or count[case.title] == 1 else f"{case.title} ({count[case.title]})"


def junit_suite(path: str, own: List[Reported], troubles: List[str]) -> Iterator[str]:
    none = sum(reported.verdict in WITHOUT_ANSWER for reported in own)
    wrong, skipped = sum(reported.is_wrong for reported in own) - none, sum(reported.verdict in ("skip", "xfail") for reported in own)
    seconds = sum(reported.seconds for reported in own)
    counts = f'tests="{len(own) + len(troubles)}" failures="{wrong}" errors="{len(troubles) + none}" skipped="{skipped}" time="{seconds:.3f}"'
    yield f"<testsuite name={xml_attribute(path)} {counts}>"
    place = f"classname={xml_attribute(path)} file={xml_attribute(path_in_repository(path))}"
    for reported, name in zip(own, lasting_names(own)):
        head = f'<testcase {place} line="{reported.case.line}" name={xml_attribute(name)} time="{reported.seconds:.3f}"'
        if reported.verdict in WITHOUT_ANSWER:
            yield f'{head}><error message={xml_attribute(reported.why_none)} type="{reported.verdict}">{xml_text(chr(10).join(reported.diff))}</error></testcase>'
        elif reported.is_wrong:
            kind = "error" if reported.is_error else "answer"
            yield f'{head}><failure message={xml_attribute(reported.verdict)} type="{kind}">{xml_text(chr(10).join(reported.diff))}</failure></testcase>'
        elif reported.verdict in ("skip", "xfail"):
            yield f"{head}><skipped message={xml_attribute(reported.remark)}/></testcase>"
        else:
            yield head + "/>"
    for why in troubles:
        yield f'<testcase classname={xml_attribute(path)} name="the suite" time="0"><error message={xml_attribute(why)}/></testcase>'
    yield "</testsuite>"


def json_lines(all_reported: List[Reported], troubles: List[SuiteTrouble]) -> Iterator[str]:
    """One object for each case, and for each suite that wasn't run to its end (`clients/suite/report.schema.json`)."""
    for reported in all_reported:
        if reported.verdict == "out":
            continue
        one = {
            "file": reported.suite.path,
            "line": reported.case.line,
            "name": reported.case.title,
            "session": reported.case.session,
            "code": list(reported.case.lines),
            "tags": sorted(reported.case.marks.tags),
            "verdict": reported.verdict,
            "remark": reported.remark,
            "wanted": reported.case.wanted,
            "came": reported.result.got if reported.result else None,
            "wantedError": reported.case.errors,
            "error": reported.errors,
            "isError": reported.is_error or bool(reported.end),
            "seconds": round(reported.seconds, 6),
            "tries": reported.result.tries if reported.result else 0,
            "startedAgain": reported.began_anew,
            "end": reported.end or None,
            "said": reported.said,
            "over": reported.over or None,
            "endedBefore": reported.ended_before,
        }
        yield json.dumps(one, ensure_ascii=True)
    for trouble in troubles:
        yield json.dumps({"file": trouble.path, "trouble": trouble.why}, ensure_ascii=True)


def github_text(text: str) -> str:
    return printable(text).replace("%", "%25").replace("\r", "%0D").replace("\n", "%0A")


def path_in_repository(path: str) -> str:
    """The path that GitHub and GitLab know: from the top of the repository, which their runs name, where the suite is in it."""
    top = os.environ.get("GITHUB_WORKSPACE") or os.environ.get("CI_PROJECT_DIR")
    whole = os.path.realpath(path)
    inside = os.path.relpath(whole, os.path.realpath(top)) if top else path
    return path if inside.startswith("..") else inside


def github_member(text: str) -> str:
    return github_text(text).replace(":", "%3A").replace(",", "%2C")


def github(all_reported: List[Reported], troubles: List[SuiteTrouble]) -> Iterator[str]:
    """Workflow commands, which GitHub shows at the lines of the text."""
    for reported in all_reported:
        if reported.is_wrong:
            lines = [*([reported.why_none] if reported.why_none else []), *reported.diff]
            path, title = github_member(path_in_repository(reported.suite.path)), github_member(f"{reported.verdict}: {reported.case.title}")
            yield f"::error file={path},line={reported.case.line},title={title}::{github_text(chr(10).join(lines) or reported.verdict)}"
    for trouble in troubles:
        yield f"::error file={github_member(path_in_repository(trouble.path))}::{github_text(trouble.why)}"


def gitlab_issue(path: str, line: int, description: str, mark: str) -> Dict[str, object]:
    return {
        "description": description,
        "check_name": "tmhost-suite",
        "fingerprint": hashlib.sha256(f"{path} {line} {mark}".encode("utf-8", "surrogateescape")).hexdigest(),
        "severity": "major",
        "location": {"path": path_in_repository(path), "lines": {"begin": line}},
    }


def gitlab(all_reported: List[Reported], troubles: List[SuiteTrouble]) -> Iterator[str]:
    """A report on the quality of code, which GitLab shows at the lines of the text."""
    issues = [gitlab_issue(reported.suite.path, reported.case.line, f"{reported.verdict}: {reported.case.title}", reported.case.digest) for reported in all_reported if reported.is_wrong]
    issues += [gitlab_issue(trouble.path, 1, trouble.why, "trouble") for trouble in troubles]
    yield json.dumps(issues, ensure_ascii=True, indent=1)


FORMATS = {"tap": tap, "tap14": tap14, "junit": junit, "json": json_lines, "github": github, "gitlab": gitlab}
