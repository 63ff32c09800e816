"""The pages of the desk: what is looked at, and what the press of a button does."""
import os
import urllib.parse

import flask
import werkzeug.formparser
from werkzeug.exceptions import HTTPException, RequestEntityTooLarge

import bundle
import readings
import told
from audit import Audit, READERS
from desk import Busy, Outdated
from forms import Form, Wrong
from flow import Flow
from limits import MOST_FILE_BYTES
from replies import REPLIES
from safety import Guard
from steps import Plan, Seed, Terms
from steps_of_rounds import Fetch, Read

HERE = os.path.dirname(os.path.abspath(__file__))
STYLES = {"style.css": os.path.join(os.path.dirname(HERE), "page"), "desk.css": HERE, "desk.js": HERE}
MOST_EXPORT_BYTES = 1 << 30
MOST_FORM_BYTES = 1 << 20
MOST_BYTES = {"/step/records/do": MOST_EXPORT_BYTES, "/step/cards/do": MOST_FILE_BYTES, "/step/count/do": MOST_FILE_BYTES, "/sheet": MOST_FILE_BYTES}
FORMS, FORMS_OF_READINGS = ("do", "preview", "back", "try"), ("begin", "take", "sheet")  # the ends of their addresses
ROOM = 1 << 16  # room in a body for what isn't its file
werkzeug.formparser.RequestEntityTooLarge = RequestEntityTooLarge  # the distribution's 2.2.2 raises it there but doesn't import it
TYPES = {".html": "text/html", ".zip": "application/zip"}


class Request(flask.Request):
    """A request whose body may be as long as its form can be, and no longer."""
    max_form_memory_size = MOST_FORM_BYTES

    @property
    def max_content_length(self):
        return next((most for end, most in MOST_BYTES.items() if self.path.endswith(end)), MOST_FORM_BYTES) + ROOM


class Pages:
    def __init__(self, desk, host, port):
        self.desk, self.guard = desk, Guard(host, port)
        self.app = flask.Flask(__name__, static_folder=None, template_folder=os.path.join(HERE, "pages"))
        self.app.request_class = Request
        self.app.jinja_env.autoescape = True  # Flask decides this by a file's ending, and these have another one
        self.app.jinja_env.trim_blocks = self.app.jinja_env.lstrip_blocks = True
        self.app.jinja_env.filters.update(told.FILTERS)
        self.app.before_request(self.guard.judge)
        self.app.after_request(self.guard.guard)
        self.app.register_error_handler(Exception, self.failed)
        for rule, view, methods in self.rules():
            self.app.add_url_rule(rule, view.__name__, view, methods=methods)

    @staticmethod
    def most_body_bytes():
        return MOST_EXPORT_BYTES + ROOM

    def rules(self):
        get, post = ["GET"], ["POST"]
        return [
            ("/", self.now, get), ("/step/<name>", self.step, get), ("/running", self.running, get), ("/typed", self.typed, get),
            ("/file/<name>", self.file, get), ("/bundle", self.bundle, get), ("/look/<name>", self.asset, get),
            ("/read/<int:number>/<reader>", self.card, get), ("/step/<name>/do", self.do, post), ("/step/<name>/preview", self.preview, post),
            ("/step/<name>/back", self.take_back, post), ("/step/plan/try", self.try_plans, post), ("/stop", self.stop, post),
            ("/read/<int:number>/<reader>/begin", self.begin_reading, post), ("/read/<int:number>/<reader>/take", self.take_reading, post),
            ("/read/<int:number>/<reader>/sheet", self.take_sheet, post), ("/step/<name>/<end>", self.step_of_form, get),
            ("/read/<int:number>/<reader>/<end>", self.card_of_form, get),
        ]

    # ---- what is looked at

    def now(self):
        return flask.redirect("/running" if self.desk.is_busy() else f"/step/{Flow(self.audit()).now().name}", 303)

    def audit(self):
        return Audit(self.desk.folder)

    def shown(self, template, audit, flow, **parts):
        """A page, with the parts that all pages have."""
        return flask.render_template(
            template, audit=audit, flow=flow, desk=self.desk, token=self.guard.token, version=self.desk.folder.version, **parts,
        )

    def found(self, name):
        """The audit as it is now, its flow, and the step with this name."""
        audit = self.audit()
        flow = Flow(audit)
        return audit, flow, flow.find(name) or flask.abort(404)

    def step(self, name, wrong=None, status=200, filled_in=None):
        if self.desk.is_busy():
            return flask.redirect("/running", 303)
        audit, flow, step = self.found(name)
        if wrong:
            self.desk.drop_notice(name)  # only the latest message is shown
        notice = self.desk.notice if self.desk.notice and self.desk.notice.step == name else None
        values = filled_in or (self.desk.filled_in if notice else {})
        parts = {"step": step, "wrong": wrong, "notice": notice, "told": told, "values": values}
        return self.shown(f"steps/{step.key}.html.j2", audit, flow, **parts), status

    def step_of_form(self, name, end):
        """Redirects a browser that goes back or begins again, and asks for the address of a form, to the page that has the form."""
        if end not in FORMS:
            flask.abort(404)
        return flask.redirect(f"/step/{self.found(name)[2].name}", 303)

    def card_of_form(self, number, reader, end):
        if end not in FORMS_OF_READINGS:
            flask.abort(404)
        self.drafts(number, reader)
        return flask.redirect(f"/read/{number}/{reader}", 303)

    def running(self):
        if not self.desk.is_busy():
            return flask.redirect(f"/step/{self.desk.step}" if self.desk.step else "/", 303)
        audit = self.audit()
        return self.shown("running.html.j2", audit, Flow(audit), runner=self.desk.runner)

    def typed(self):
        audit = self.audit()
        return self.shown("typed.html.j2", audit, Flow(audit), text=self.desk.folder.text_of_record(), damaged=self.desk.folder.damaged())

    def file(self, name):
        """A file of the record, and no other file: the name is looked up in the record, and isn't opened as a path."""
        if name not in self.desk.folder.files():
            flask.abort(404)
        kind = TYPES.get(os.path.splitext(name)[1], "text/plain")
        flask.g.is_made_page = kind == "text/html"
        return flask.send_file(self.desk.folder.place(name), mimetype=kind, as_attachment="save" in flask.request.args, download_name=name)

    def bundle(self):
        return flask.send_file(bundle.packed(self.desk.folder), mimetype="application/gzip", as_attachment=True, download_name=bundle.NAME)

    def asset(self, name):
        if name not in STYLES:
            flask.abort(404)
        return flask.send_from_directory(STYLES[name], name)

    # ---- what is done

    def form(self):
        """The form of a request, whose page must be this desk's."""
        self.guard.judge_token()
        return Form(flask.request.form, flask.request.files)

    def do(self, name):
        form = self.form()
        audit, flow, step = self.found(name)
        if not flow.may_do(step):
            raise Outdated
        try:
            lines = step.lines(form)
        except Wrong as wrong:
            return self.step(name, wrong=str(wrong), status=400, filled_in=form.values)
        self.begin(step, lines, then=lambda deed: step.finish())
        return flask.redirect("/running" if self.desk.is_busy() else f"/step/{name}", 303)

    def begin(self, step, lines, **given):
        self.desk.begin(step.name, flask.request.form.get("version", ""), lines, replaces=step.is_done, filled_in=flask.request.form, **given)

    def preview(self, name):
        """Shows terms, a seed or a number of draws once more before they are fixed."""
        form = self.form()
        audit, flow, step = self.found(name)
        if not flow.may_do(step) or not isinstance(step, (Terms, Seed, Fetch)):
            raise Outdated
        if "change" in form.values:
            return self.step(name, filled_in=form.values)
        try:
            preview = step.preview(form)
        except Wrong as wrong:
            return self.step(name, wrong=str(wrong), status=400, filled_in=form.values)
        return self.shown("preview.html.j2", audit, flow, step=step, preview=preview, values=flask.request.form)

    def try_plans(self):
        """Makes plans with other limits and gammas, which are looked at but not kept."""
        self.form()
        audit, flow, step = self.found(Plan.key)
        if not flow.may_do(step):
            raise Outdated
        self.desk.begin(step.name, flask.request.form.get("version", ""), step.trials(), is_kept=False, then=self.keep_trials)
        return flask.redirect("/running" if self.desk.is_busy() else f"/step/{step.name}", 303)

    def keep_trials(self, deed):
        self.desk.shown[Plan.key] = [(line, text) for line, text in deed.answers()]

    def take_back(self, name):
        self.form()
        audit, flow, step = self.found(name)
        if not flow.may_take_back(step):
            raise Outdated
        self.desk.take_back(flask.request.form.get("version", ""))
        return flask.redirect("/", 303)

    def stop(self):
        self.form()
        self.desk.stop()
        return flask.redirect("/running", 303)

    # ---- readings

    def drafts(self, number, reader):
        """The step of these readings and the reader's draft, as long as the draft can still change."""
        audit, flow, step = self.found(f"{Read.key}{number}")
        if reader not in READERS or not flow.may_do(step):
            flask.abort(404)
        return audit, flow, step, readings.Draft(audit, number, reader)

    def card(self, number, reader, wrong=None, status=200, card=None):
        audit, flow, step, draft = self.drafts(number, reader)
        if not draft.cards:
            return flask.redirect(f"/step/{step.name}", 303)
        if not draft.person:
            return self.shown("reader.html.j2", audit, flow, step=step, reader=reader, wrong=wrong), status
        if not (card or wrong or "card" in flask.request.args):  # a card has its own address, so that a browser that goes back shows the same card
            return flask.redirect(address_of(number, reader, draft.card("")), 303)
        card = draft.card(card or flask.request.args.get("card", ""))
        values = flask.request.form if wrong else {}
        parts = {"step": step, "reader": reader, "draft": draft, "card": card, "wrong": wrong, "values": values, "was": readings.mark_of(draft.of(card.id))}
        return self.shown("card.html.j2", audit, flow, **parts), status

    def begin_reading(self, number, reader):
        form = self.form()
        with self.desk.drafting:
            audit, flow, step, draft = self.drafts(number, reader)
            try:
                draft.person = readings.person_of(form)
                other = readings.Draft(audit, number, next(each for each in READERS if each != reader))
                if draft.person.lower() == other.person.lower():
                    raise Wrong(f"{other.person} is the other reader. Two people read each card separately. Give another name.")
            except Wrong as wrong:
                return self.card(number, reader, wrong=str(wrong), status=400)
            draft.keep()
        return flask.redirect(f"/read/{number}/{reader}", 303)

    def take_reading(self, number, reader):
        """Puts the reading of a card into the reader's draft, if no other page has changed it in the meantime."""
        form = self.form()
        with self.desk.drafting:
            audit, flow, step, draft = self.drafts(number, reader)
            card = next((each for each in draft.cards if each.id == flask.request.form.get("card")), None) or flask.abort(404)
            try:
                if flask.request.form.get("was") != readings.mark_of(draft.of(card.id)):
                    raise Wrong("A reading of this card was saved since this page was loaded. The reading as it is now is below.")
                draft.readings[card.id] = readings.reading_of(form, draft.contests)
            except Wrong as wrong:
                return self.card(number, reader, wrong=str(wrong), status=400, card=card.id)
            self.keep(draft, step)
        following = draft.next(card.id)
        return flask.redirect(address_of(number, reader, following) if following else f"/step/{step.name}", 303)

    def keep(self, draft, step):
        """Keeps a draft. What was said about readings that differ is dropped when none differ any longer."""
        draft.keep()
        if not step.different(step.drafts()):
            self.desk.drop_notice(step.name)

    def take_sheet(self, number, reader):
        """Puts the readings of a file into the reader's draft, all of them or none."""
        form = self.form()
        with self.desk.drafting:
            audit, flow, step, draft = self.drafts(number, reader)
            if not draft.person:
                flask.abort(404)
            try:
                text = form.file("readings", "a seen file").read().decode(errors="replace")
                draft.readings.update(readings.readings_in(text, draft))
            except Wrong as wrong:
                return self.card(number, reader, wrong=str(wrong), status=400)
            self.keep(draft, step)
        return flask.redirect(f"/read/{number}/{reader}" if draft.left() else f"/step/{step.name}", 303)

    # ---- what goes wrong

    def failed(self, fault):
        """A plain page about what was wrong with a request. The folder is unchanged."""
        status, text = reply_of(fault)
        if status == 500:
            self.app.logger.error("a fault of the desk", exc_info=fault)
        return flask.render_template("failed.html.j2", status=status, text=text), status


def address_of(number, reader, card):
    return f"/read/{number}/{reader}?card={urllib.parse.quote(card.id)}"


def reply_of(fault):
    if isinstance(fault, Busy):
        return 409, REPLIES["busy"]
    if isinstance(fault, Outdated):
        return 409, REPLIES["outdated"]
    if isinstance(fault, OSError):
        return 507, f"{fault.strerror}: nothing was changed."
    status = fault.code if isinstance(fault, HTTPException) else 500
    return status, REPLIES.get(status, REPLIES[500])
