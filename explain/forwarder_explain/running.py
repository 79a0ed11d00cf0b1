"""A run over packets: explains, counts and shows the questions that the options choose."""
from . import page
from .explaining import Explaining
from .options import chooser, span_of_text
from .report import Row, Summary, Teller, restart_text, written
from .scripts import Scripts
from .tally import Tally
from .times import SECOND


class Run:
    """The output of a run. `note` takes remarks, `span` has the moments of the first and the last question."""

    def __init__(self, options, settings, begins, is_lossy, note, is_live=False):
        self.options, self.settings, self.note, self.tally = options, settings, note, Tally()
        self.explaining = Explaining(settings, begins, is_lossy, self.settled, is_live)
        self.explaining.count_query = self.tally.add_query
        for text in options.restarted:
            self.explaining.history.tell(*span_of_text(text, begins))
        self.teller = Teller(settings, self.explaining.history)
        self.is_chosen = chooser(options, begins)
        self.groups = page.Groups() if options.html else None
        self.scripts = self.explaining.upstream.record = Scripts(options.script, settings) if options.script else None
        self.span, self.has_chosen, self.said = None, False, 0

    def settled(self, question):
        first, last = self.span or (question.moment, question.moment)
        self.span = min(first, question.moment), max(last, question.moment)
        if not self.is_chosen(question):
            return
        self.has_chosen = True
        row = Row(question, self.teller)
        if self.scripts:
            self.scripts.choose(row)
        if self.options.failures and not row.failed():
            return
        self.tally.add(row)
        self.show(row)
        if self.groups:
            self.groups.add(row)

    def show(self, row):
        options, is_different = self.options, row.is_different()
        is_listed = not options.summary and not options.html
        if options.json and is_listed:
            print(written(row.object()))
        elif not options.json and (is_listed or is_different):
            print("\n".join([row.line(), *(row.differs() if is_different else ())]))

    def show_restarts(self):
        """Prints that the service began anew, once for each restart."""
        begun = [each for each in self.explaining.history.restarts if each.begun is not None]
        for each in begun[self.said :]:
            print(written({"begun_anew_by": each.begun / SECOND}) if self.options.json else restart_text(each))
        self.said = len(begun)

    def notes(self):
        return [*self.explaining.clock.notes, *self.explaining.traffic.notes()]

    def finish(self):
        summary = Summary(self.tally, self.explaining)
        if self.scripts:
            self.scripts.write()
        if self.groups:
            page.write(self.options, self.settings, self.groups, summary)
        if self.options.json:
            print(written(summary.object()))
        else:
            print("\n".join([*(summary.tables() if self.options.summary else ()), *summary.verdict()]))
        return self.tally.all["different"] > 0
