"""The tables of the script and of the record: verbs and their words, smackfs files, limits, cases, answers.
A verb that the program lacks still stands here; the program itself says that it is not built."""

from . import calls, kinds
from .kinds import Kind

TRACE_WAY = kinds.one_of("WAY", "read", "attach")
SOCKET_KIND = kinds.one_of("KIND", "dgram", "stream")

# Each verb with the kinds of the words behind it.
VERBS: dict[str, tuple[Kind, ...]] = {
    "write": (kinds.FILE, kinds.NUMBER),
    "ask": (kinds.LABEL, kinds.LABEL, kinds.MODES),
    "fork": (kinds.NAME,),
    "exit": (),
    "wait": (kinds.NAME,),
    "exec": (kinds.PATH,),
    "relabel": (kinds.LABEL,),
    "drop": (kinds.CAP,),
    "kill": (kinds.NAME, kinds.SIGNAL),
    "take": (),
    "trace": (TRACE_WAY, kinds.NAME),
    "mkdir": (kinds.PATH,),
    "create": (kinds.PATH,),
    "unlink": (kinds.PATH,),
    "rmdir": (kinds.PATH,),
    "rename": (kinds.PATH, kinds.PATH),
    "list": (kinds.PATH, kinds.NUMBER),
    "setattr": (kinds.PATH, kinds.ATTR, kinds.VALUE),
    "delattr": (kinds.PATH, kinds.ATTR),
    "getattr": (kinds.PATH, kinds.ATTR),
    "open": (kinds.PATH, kinds.WAY),
    "read": (kinds.NUMBER, kinds.NUMBER),
    "put": (kinds.NUMBER, kinds.DATA),
    "close": (kinds.NUMBER,),
    "map": (kinds.NUMBER,),
    "unmap": (kinds.NUMBER,),
    "socket": (SOCKET_KIND, kinds.SOCK),
    "sockattr": (kinds.SOCK, kinds.ATTR, kinds.LABEL),
    "send": (kinds.SOCK, kinds.SOCK, kinds.DATA),
    "connect": (kinds.SOCK, kinds.SOCK),
    "say": (kinds.SOCK, kinds.DATA),
    "recv": (kinds.SOCK,),
    "inject": (kinds.SOCK, kinds.DATA),
    "shut": (kinds.SOCK,),
    "msgnew": (kinds.KEY,),
    "msgsnd": (kinds.KEY, kinds.DATA),
    "msgrcv": (kinds.KEY,),
    "msgrm": (kinds.KEY,),
    "semnew": (kinds.KEY, kinds.NUMBER),
    "semop": (kinds.KEY, kinds.STEP),
    "semget": (kinds.KEY,),
    "semrm": (kinds.KEY,),
    "shmnew": (kinds.KEY, kinds.NUMBER),
    "shmat": (kinds.KEY, kinds.ATTACH_WAY),
    "shmread": (kinds.KEY, kinds.NUMBER, kinds.NUMBER),
    "shmwrite": (kinds.KEY, kinds.NUMBER, kinds.DATA),
    "shmdt": (kinds.KEY,),
    "shmrm": (kinds.KEY,),
}

# The verbs that the program has.
BUILT_VERBS = calls.built_verbs()

# The calls that ask with the label of a socket, which need not be that of the task.
SOCKET_VERBS = {"send", "connect", "say", "inject"}

# The smackfs files whose text is lines of fields, with the names of the fields.
LINE_FILES: dict[str, tuple[str, ...]] = {
    "load2": ("subject", "object", "modes"),
    "load-self2": ("subject", "object", "modes"),
    "change-rule": ("subject", "object", "modes to give", "modes to take away"),
    "revoke-subject": ("subject",),
}

# The smackfs files whose text is lines of a fixed width: 24 bytes, 24 bytes, 5 bytes.
WIDE_FILES = {"load", "load-self"}
WIDE_LINE = 53

# The smackfs files whose text is one word.
WORD_FILES: dict[str, str] = {"ambient": "one label", "ptrace": "0, 1 or 2", "logging": "0, 1, 2 or 3"}

LIST_FILES = {"onlycap", "relabel-self"}
FILES = [*LINE_FILES, *sorted(WIDE_FILES), *WORD_FILES, *sorted(LIST_FILES)]

MOST_BYTES = 4_194_304
MOST_LINES = 131_072
MOST_TASKS = 64
MOST_LABELS = 65_535
MOST_TEXT_BYTES = 65_536
MOST_ROWS = 1_048_576

PREDEFINED = ("_", "^", "*", "?", "@")

# The first words of replies that are no refusal.
REPLIES = {
    "ok",
    "child",
    "handle",
    "map",
    "value",
    "signal",
    "data",
    "packet",
    "names",
    "label",
    "true",
    "none",
    "denied",
}

# The first words of the refusals of a write.
WRITE_REFUSALS = {"no-such-file", "too-long", "bad-line", "unknown-label", "not-privileged", "journal-full"}

# The refusals of an object call, in words.
REFUSALS: dict[str, str] = {
    "exists": "the name is taken",
    "is-root": "the path is the root directory",
    "is-directory": "a directory stands where a file is wanted",
    "not-directory": "a file stands where a directory is wanted",
    "not-regular": "only files have this attribute",
    "not-empty": "the directory has names in it",
    "loop": "the new place lies below the old one",
    "not-privileged": "CAP_MAC_ADMIN is not effective",
    "no-such-task": "no live task has this name",
    "no-such-name": "nothing has this name",
    "no-such-key": "nothing has this key",
    "range": "the number is out of its range",
    "again": "nothing is there yet",
    "bad-attribute": "this has no such attribute",
    "bad-value": "the attribute takes another kind of value",
    "bad-handle": "no handle has this number",
    "stale": "the file is gone",
    "wrong-way": "it was not opened for this",
    "not-owner": "the socket is another task's",
    "wrong-kind": "the socket is of the other kind",
    "connected": "one of them has a peer, or they are one",
    "not-connected": "the socket has no peer",
    "attached": "it is attached already",
    "not-attached": "it is not attached",
    "tasks-full": "there are no tasks left",
    "self-full": "the task has its 256 self rules",
    "relabel-full": "a relabel list has at most 256 labels",
    "tree-full": "there are no files left",
    "handles-full": "the task has its 256 handles",
    "data-full": "a file has at most 4,096 bytes",
    "maps-full": "the task has its 64 mappings",
    "sockets-full": "there are no sockets left",
    "queue-full": "the queue has its 64 items",
    "keys-full": "there are no keys left",
}

# The cases that allow or deny whatever the rules are.
CASES: dict[int, str] = {
    1: "a subject labelled * is denied everything",
    2: "the hat ^ may read and execute everything",
    3: "everyone may read and execute the floor _",
    4: "everyone may do everything to *",
    5: "subject and object have the same label",
}
