"""Has the prover check the functions of a statement now, and refuse its wrong bodies."""
import os
import pathlib
import re
import tempfile

from laxonje_tools import kit
from laxonje_tools import repository
from laxonje_tools import wrong_bodies

from .headlines import edit_path
from .statement import Part, Unknown
from .tree import Contract, Tree

SEEN = re.compile(r"^(?:statements|crate) (\S+): modules loaded=(\d+)", re.M)


def prover_path(tree: Tree, contract: Contract) -> str:
    """A function as the prover names it: a method by the module of its type, and one of a trait by the impl's and both names."""
    it, module = contract.item, contract.source.path
    if not it.owner:
        return "::".join([*module, it.name])
    if it.trait:
        return "::".join([*module, it.owner + it.trait, it.name])
    node = tree.type_named(contract.crate, module, it.owner)
    return "::".join([*(module if node is None else node.module), it.owner, it.name])


def prove(tree: Tree, parts: list[Part], refused: tuple[str, ...]) -> int:
    """Proves each function and tries each wrong body, in a copy of the repository over what `rt ci` kept of the crates below; the
    status: 0 if all are as they should be."""
    with tempfile.TemporaryDirectory(prefix="statement-") as room:
        repository.copy_to(room, [])
        names = {it.contract.crate for it in parts} | {name.partition("/")[0] for name in refused}
        crates = kit.crates_over_kept(room, names)
        print()
        failed = sum(not is_proved(tree, each.contract, crates) for each in parts)
        failed += sum(not is_refused(room, name, crates) for name in refused)
    print(f"{len(parts) + len(refused) - failed} passed, {failed} failed")
    return 1 if failed else 0


def is_proved(tree: Tree, contract: Contract, crates: dict) -> bool:
    """Whether the prover proves this function and the lemmas of its crate that it cites, from nothing; says the seconds, and what of
    the crates below was kept."""
    path = prover_path(tree, contract)
    done = wrong_bodies.check(crates[contract.crate], kit.kit(), {}, [path])
    line = wrong_bodies.of_function(wrong_bodies.lines_of(done.said, contract.crate), path) or ""
    passed = done.status == 0 and line.startswith("proved")
    verdict = "proved" if passed else f"NOT PROVED: {line or done.said[-300:].strip()}"
    print(f"{contract.path}: {verdict}, in {done.wall:.0f} s; {stood_on(done.said)}", flush=True)
    return passed


def stood_on(said: str) -> str:
    """The libraries of which a check read what earlier ones had kept, each with how many modules."""
    rows = [f"{name} {loaded}" for name, loaded in SEEN.findall(said) if loaded != "0"]
    return f"kept before, in modules: {', '.join(rows)}" if rows else "nothing was kept"


def is_refused(room: str, name: str, crates: dict) -> bool:
    """Whether a clause refuses a wrong body, with its crate's proofs from nothing; says which function, and the seconds."""
    path = os.path.join(room, edit_path(pathlib.Path(room), name))
    crate = crates[name.partition("/")[0]]
    try:
        edit = wrong_bodies.read(path)
        wrong_bodies.prepare(edit, crate.folder, wrong_bodies.modules_of_types(crate.folder))
        texts = {file: wrong_bodies.text_of(crate.folder, file) for file in edit.files}
        texts = wrong_bodies.changed(texts, edit.changes)
    except (OSError, wrong_bodies.Unreadable) as why:
        raise Unknown(f"{name}: {why}") from why
    done = wrong_bodies.check(crate, kit.kit(), texts, edit.functions)

    def proof_at(file: str) -> str:
        at = pathlib.Path(crate.folder, file)
        return at.read_text(encoding="utf-8") if at.is_file() else ""

    verdicts = {function: wrong_bodies.verdict_of(done.said, crate.name, function, proof_at) for function in edit.judged}
    kinds = {wrong_bodies.Verdict.CLAUSE: "a clause", wrong_bodies.Verdict.INVARIANT: "an invariant"}
    refused = [f"{kinds[kind]} of {function}" for kind in kinds for function, it in verdicts.items() if it is kind]
    told = ", ".join(f"{function} {it.name}" for function, it in verdicts.items())
    said = f"refused by {refused[0]}" if refused else f"NOT REFUSED by a clause: {told}"
    print(f"{name}: {said}, in {done.wall:.0f} s", flush=True)
    return bool(refused)
