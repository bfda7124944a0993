"""Each kind of question, and who on this machine answers it. What is costly to load is loaded when it is asked."""

from __future__ import annotations

from typing import TYPE_CHECKING, Any, Callable

from bujerova_host import machine
from bujerova_host.forms import Answered

if TYPE_CHECKING:
    from bujerova_host.services import Services
    from bujerova_host.web import Web

Question = dict[str, Any]


class World:
    """Answers each question with one item, or says that it could not be answered."""

    def __init__(self) -> None:
        self._names = machine.Names()
        self._loaded_web: Web | None = None
        self._loaded_services: Services | None = None
        self._answers: dict[str, Callable[[Question], Answered]] = {
            "now": machine.now, "jitter": machine.jitter, "read": machine.read, "write": machine.write,
            "run": machine.run, "lookup": self._names.look_up,
            "http": lambda asked: self._web().container(asked),
            "imds-token": lambda asked: self._web().metadata_token(asked),
            "imds-get": lambda asked: self._web().metadata(asked),
            "assume-role": lambda asked: self._services().assume_role(asked),
            "web-identity": lambda asked: self._services().web_identity(asked),
            "role-credentials": lambda asked: self._services().role_credentials(asked),
            "create-token": lambda asked: self._services().create_token(asked),
            "sign-in": lambda asked: self._services().sign_in(asked)}

    def knows(self, kind: Any) -> bool:
        """Whether there is an answer to questions of this kind."""
        return isinstance(kind, str) and kind in self._answers

    def answer(self, question: Question) -> Answered:
        """The answer to a question of a kind that is known."""
        return self._answers[question["ask"]](question)

    def _web(self) -> Web:
        if self._loaded_web is None:
            from bujerova_host.web import Web
            self._loaded_web = Web(self._names)
        return self._loaded_web

    def _services(self) -> Services:
        if self._loaded_services is None:
            from bujerova_host.services import Services
            self._loaded_services = Services()
        return self._loaded_services
