"""One run of daig-check: the files that its words name are checked, and the report is written."""
from __future__ import annotations

import argparse
import contextlib
import math
import os
import sys
from importlib import import_module
from typing import TYPE_CHECKING, AsyncIterator, Iterator

from daig_editor.checking.analysing import Analyse, Text, analysed
from daig_editor.checking.analysis import Wanted
from daig_editor.checking.baseline import read_baseline
from daig_editor.checking.configuration import Configuration, Configurations
from daig_editor.checking.patterns import Patterns
from daig_editor.checking.program import program_to_ask
from daig_editor.checking.selection import Limit, Selection
from daig_editor.checking.sources import Source, bytes_of, sources_of, standard_input
from daig_editor.checking.sources import Wanted as WantedFiles
from daig_editor.language.records import dataclass, replace
from daig_editor.server.choices import DOMAIN, Faults
from daig_editor.reports.finding import CheckedFile, troubled
from daig_editor.reports.output import Output, output_to
from daig_editor.reports.progress import Progress
from daig_editor.reports.project import STANDARD_INPUT, STANDARD_INPUT_NAME
from daig_editor.reports.report import Report, Totals
from daig_editor.server.serving import Settings

if TYPE_CHECKING:
    from daig_editor.checking.revisions import Against

BUDGET = 100
# The module and the class of each format, which are loaded where it is wanted.
FORMATS = {
    "brief": ("text", "BriefReport"),
    "json": ("json_lines", "JsonReport"),
    "sarif": ("sarif", "SarifReport"),
    "html": ("html", "HtmlReport"),
    "github": ("github", "GithubReport"),
    "junit": ("junit", "JunitReport"),
}


class Wrong(Exception):
    """Why nothing can be checked, in words."""


@dataclass(frozen=True)
class _Telling:
    """A report that is being written."""

    output: Output
    report: Report
    totals: Totals
    progress: Progress
    limit: Limit

    def tell(self, checked: CheckedFile) -> None:
        """Tells of a file."""
        self.limit.apply(checked)
        self.totals.add(checked)
        text = self.report.file(checked)
        if text:
            self.progress.clear()
            self.output.write(text)

    def end(self) -> int:
        """All files are told; answers the highest status."""
        self.output.write(self.report.end())
        self.progress.end(self.totals.summary())
        self.output.keep()
        return self.totals.status


class Run:
    """What the words ask for. What may wait for others is read here, before signals are handled."""

    def __init__(self, args: argparse.Namespace) -> None:
        """Raises `Wrong`, `BadBaseline`, `BadConfiguration` or `NoProgramFound`."""
        self._args = args
        self._configurations = Configurations(args.isolated, args.config)
        self._baseline = read_baseline(args.baseline) if args.baseline else None
        exclude = Patterns(os.getcwd(), tuple(it for words in args.exclude for it in words))
        files = WantedFiles(self._configurations, exclude, args.force_exclude)
        self._sources = sources_of(args.files, files)
        self._left_out = files.left_out
        for source in self._sources:
            self._configurations.of(os.path.dirname(source.name) or ".")
        self._input = standard_input() if STANDARD_INPUT in args.files else b""
        self._against = self._old_texts() if args.against is not None else None
        program = args.program or "" if args.cluster else program_to_ask(args.program)
        settings = Settings(program, widening=args.widening, delay=args.delay, memory=args.memory)
        self._analyse: Analyse = analysed
        self._wanted = Wanted(
            settings, dead=args.dead, tries=args.tries, inputs=args.inputs, states=args.format == "html", new=args.new
        )
        self._test_output()

    def _old_texts(self) -> Against:
        """Where the old texts are."""
        from daig_editor.checking.revisions import OldFile, against

        found = against(self._args.against)
        if isinstance(found, OldFile) and len(self._sources) > 1:
            raise Wrong(f"--against {self._args.against}: a folder is wanted where several files are checked")
        return found

    @property
    def is_alone(self) -> bool:
        """Whether there is one file, and nothing to ask of it but one server."""
        return len(self._sources) == 1 and self._against is None and not self._args.cert and not self._args.cluster

    def run_alone(self) -> int:
        """Checks the only file and writes the report, without asyncio, whose load takes longer; answers the status."""
        from daig_editor.checking.alone import checked_alone
        from daig_editor.server.blocking import BlockingProcess

        self._wanted = replace(self._wanted, start=BlockingProcess.start)
        with self._telling() as telling:
            telling.tell(checked_alone(self._sources[0], self._check, self._args.timeout))
            return telling.end()

    async def run(self) -> int:
        """Checks all files and writes the report; answers the highest status."""
        from daig_editor.checking.work import in_order

        with self._telling() as telling:
            async with self._analysing(telling.progress) as (jobs, seconds):
                files = in_order(self._sources, jobs, self._check, telling.progress.done, seconds)
                async with contextlib.aclosing(files):
                    async for checked in files:
                        telling.tell(checked)
            return telling.end()

    @contextlib.asynccontextmanager
    async def _analysing(self, progress: Progress) -> AsyncIterator[tuple[int, float]]:
        """The time in which files are checked, here or by a cluster: how many at once, and for how many seconds each."""
        if not self._args.cluster:
            yield self._args.jobs, self._args.timeout
            return
        from daig_editor.checking.cluster import MOST_FILES, NoCluster, connected

        try:
            async with connected(self._args.cluster, self._args.timeout, progress.note) as cluster:
                self._analyse = cluster.analyse
                yield MOST_FILES, math.inf  # a file has its time when a worker begins it
        except NoCluster as why:
            raise Wrong(f"--cluster {self._args.cluster}: {why}") from None

    @contextlib.contextmanager
    def _telling(self) -> Iterator[_Telling]:
        """The report that is being written, which is dropped where something goes wrong."""
        output = output_to(self._args.output)
        try:
            totals = Totals(left_out=self._left_out)
            progress = Progress(len(self._sources), self._args.quiet)
            yield _Telling(output, self._format(), totals, progress, Limit(self._args.max_findings))
        except BaseException:
            output.drop()
            raise

    async def _check(self, source: Source) -> CheckedFile:
        """All that is told of one file."""
        configuration = self._configurations.of(os.path.dirname(source.name) or ".")
        faults = Faults(self._args.faults or configuration.faults or Faults.ALL.value)
        wanted = replace(self._wanted, settings=self._settings(configuration), faults=faults)
        checked = await self._analysed(source, wanted)
        if self._args.cert:
            from daig_editor.checking.certificates import certify

            await certify(checked, self._args.cert, wanted.settings)
        Selection(self._args.select or configuration.select, self._baseline).apply(checked)
        return checked

    def _settings(self, configuration: Configuration) -> Settings:
        """What a file is served with: by the command line, else by its configuration."""
        domain = self._args.domain or configuration.domain or DOMAIN
        budget = self._args.budget or configuration.budget or BUDGET
        return replace(self._wanted.settings, domain=domain, budget=budget)

    async def _analysed(self, source: Source, wanted: Wanted) -> CheckedFile:
        """Checks one file."""
        text = Text(source.name, self._bytes(source))
        if self._against is None:
            return await self._analyse(text, wanted)
        from daig_editor.checking.comparison import new_file
        from daig_editor.checking.revisions import NoOldText, NotComparable

        try:
            old = await self._against.old(source)
        except NotComparable as why:
            return troubled(source.name, str(why))
        except NoOldText as missing:
            checked = await self._analyse(text, wanted)
            new_file(checked, str(missing))
            return checked
        return await self._analyse(text._replace(old=old), wanted)

    def _bytes(self, source: Source) -> bytes:
        """The bytes of a file; raises `OSError`."""
        if source.name != STANDARD_INPUT_NAME:
            return bytes_of(source.name)
        if isinstance(self._input, OSError):
            raise self._input
        return self._input

    def _format(self) -> Report:
        """The format that is asked for."""
        if self._args.format == "text":
            from daig_editor.reports.text import TextReport

            return TextReport(not self._args.output and sys.stdout.isatty() and "NO_COLOR" not in os.environ)
        module, name = FORMATS[self._args.format]
        report: Report = getattr(import_module(f"daig_editor.reports.{module}"), name)()
        return report

    def _test_output(self) -> None:
        """A report does not take the place of a file that is checked."""
        path = self._args.output
        if path is None or not os.path.isfile(path):
            return
        for source in self._sources:
            with contextlib.suppress(OSError):
                if os.path.samefile(path, source.name):
                    raise Wrong(f"{path} is a file to be checked, so the report is not written there")
