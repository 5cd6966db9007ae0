"""The runs that are disturbed: what stands before, the words and the script, and what stands then."""

from program import NARROW, RACK, SEED, THREE_AND_TWO, TWO_PARITY, complaints_afterwards, pattern, script, store


class Session:
    """A rack, scripts of sessions before it that end, archives that are emptied then, and the script that is disturbed."""

    is_session = True
    words = ["run", "--seed", SEED]

    def __init__(self, name, rack, groups, before, during, emptied=(), files=None, new=None, spent=()):
        self.name, self.rack, self.groups, self.before, self.given = name, rack, groups, before, during
        # the files that ended sessions stored, and those that the disturbed one stores
        self.emptied, self.files, self.new = emptied, files or {}, new or {}
        # the archives of groups of which as many archives are lost as they bear, by group
        self.spent = dict(spent)

    def prepare(self, folder):
        folder.begin(self.rack)
        for text in self.before:
            answer = folder.run(text)
            assert answer.status == 0, (self.name, answer.status, answer.out, answer.err)
        for number in self.emptied:
            (folder.path / f"archive-{number}").write_bytes(b"")
        return folder

    def is_clean(self, answer):
        """Whether this is what comes where nothing is in the way."""
        return answer.status in (0, 1)

    def spent_groups(self, name):
        """The groups in which a loss on the archive file of this name is one more than is borne."""
        return {group for group, numbers in self.spent.items() if name in {f"archive-{it}" for it in numbers}}

    def complaints_afterwards(self, folder, clean, sure=(), spent=()):
        """What is wrong in the session after the disturbed one: every file of an ended session has to come back, and those of
        the disturbed one that are sure; its other files may be absent, and are never other bytes. Then all is mended."""
        return complaints_afterwards(folder, self.files | self.new, set(self.new) - set(sure), self.groups, spent)


class OtherRun:
    """A run that is no session, in a folder where a file is stored or in an empty one."""

    is_session = False
    files, new = {}, {}

    def __init__(self, name, words, text, given=b"", is_filled=False, status=0):
        self.name, self.words, self.given, self.is_filled = name, words, given, is_filled
        # what it comes to: a part of what is written, and the status
        self.text, self.status = text, status

    def prepare(self, folder):
        if self.is_filled:
            assert folder.begin(RACK).run(script(store("a", B))).status == 0
        return folder

    def is_clean(self, answer):
        return answer.status == self.status and self.text in answer.out

    def spent_groups(self, _):
        return set()

    def complaints_afterwards(self, folder, clean, sure=(), spent=()):
        """The same run has to answer as if nothing had been, but for an `init` of which the image was left."""
        again = folder.call(self.words, self.given)
        is_made = self.name == "init" and (again.status, again.out) == (10, b"image exists\n")
        return [] if is_made or (again.status, again.out) == (clean.status, clean.out) else [f"the next run ends with {again.status}"]


A, B, C = pattern(900), pattern(5, 80), pattern(1800, 3)
OLD = {"a": A, "b": B}
STORED = [script(store("a", A), store("b", B))]
ONE_STORED = [script(store("b", B))]
# The archives of the first two groups, each of three columns and one of parity.
FIRST_TWO = {0: range(4), 1: range(4, 8)}

SESSIONS = [
    Session("store", RACK, 3, STORED, script(store("c", C), "fetch a"), files=OLD, new={"c": C}),
    Session("first-store", RACK, 3, [], script(store("a", A), store("b", B)), new=OLD),
    Session("fetch-that-mends", RACK, 3, STORED, script("fetch a", "fetch b"), emptied=(0, 4), files=OLD, spent=FIRST_TWO),
    Session("repair", RACK, 3, STORED, script("repair 0", "scrub 0", "repair 1", "scrub 1"), emptied=(1, 6), files=OLD, spent=FIRST_TWO),
    Session("replace", RACK, 3, STORED, script("replace 0 20", "fetch a", "repair 0", "status"), files=OLD, spent={0: (1, 2, 3, 20)}),
    Session("migrate", RACK, 3, STORED, script("migrate 2 21", store("c", C), "fetch b"), files=OLD, new={"c": C}),
    Session("renew", RACK, 3, STORED, script("renew a 3 2 3 20", "fetch a", "list"), files=OLD),
    Session("one-column", NARROW, 3, STORED, script(store("c", B), "fetch a", "scrub 2"), files=OLD, new={"c": B}),
    Session("two-parity", TWO_PARITY, 3, STORED, script(store("c", C), "repair 0", "fetch a"), emptied=(0, 1), files=OLD, new={"c": C},
            spent={0: range(4)}),
    # the next two go on in a stripe that has blocks already, whose parity is written over
    Session("store-in-stripe", RACK, 3, ONE_STORED, script(store("c", C), "fetch c"), files={"b": B}, new={"c": C}),
    Session("store-in-stripe-two", THREE_AND_TWO, 3, ONE_STORED, script(store("c", C), "fetch c"), files={"b": B}, new={"c": C}),
    Session("looks", RACK, 3, STORED, script("list", "status", "scrub 0", "scrub 1", "scrub 2", "fetch b"), files=OLD),
]

DRILL = "drill --fragments 2 --need 2 --shards 3 --blur 16 --hidden 1 --seen 2 --seed".split() + [SEED]
RECOVER = "recover --archives 12 --stripes 3 --blur 16".split()
OTHER_RUNS = [
    OtherRun("init", ["init", *NARROW], b"ready\n"),
    OtherRun("recover", RECOVER, B, is_filled=True),
    OtherRun("recover-robust", [*RECOVER, "--robust", "yes"], B, is_filled=True),
    OtherRun("recover-open", [*RECOVER, "--open", "yes"], B, is_filled=True),
    # of two pieces three blocks of the fragment that is seen, and one of the other
    OtherRun("drill", DRILL, b"explained 900 2 8\n", b"900\n%s\n%s\n" % (A, pattern(900, 5))),
    OtherRun("bad-line", ["run"], b"bad line 2\n", b"fetch a\nno line\n", is_filled=True, status=3),
]
