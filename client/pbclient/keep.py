"""The commands that make a store and keep it well."""
import hashlib, os, time

from . import VERSION, store
from .talk import NoProgram, program


def init(call):
    """Makes ROOT and an empty store in it."""
    call.make_folder()
    if not call.look(writes=True, makes=True):
        raise store.no_store(f"{call.root} has a store already", "use it as it is, or name another folder")
    call.make_store()
    call.report.result("store_made", f"{call.root} is a store now", root=call.root)


def version(call):
    """Tells the client's version, and which program it would start."""
    try:
        path = program(call.options.program)
    except NoProgram as error:
        call.report.result("version", f"pbclient {VERSION}; {error}", version=VERSION, program=None)
        return
    with open(path, "rb") as it:
        digest = hashlib.sha256(it.read()).hexdigest()
    made = time.strftime("%Y-%m-%d", time.gmtime(os.stat(path).st_mtime))
    text = f"pbclient {VERSION}\npbstore {path}, built {made}, SHA-256 {digest}"
    call.report.result("version", text, version=VERSION, program=path, built=made, sha256=digest)
