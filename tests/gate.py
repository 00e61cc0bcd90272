"""What the scripts of the gate share: the crates of crates.txt, a copy of them, times in words, and an end by a
signal."""
import os
import shutil
import signal

PARTS = ("src", "specs", "proofs")  # the folders of a crate that a proof reads


def crates(top):
    """The crates that crates.txt lists, in its order, and what each stands on."""
    found = {}
    with open(os.path.join(top, "crates.txt"), encoding="utf-8") as text:
        for line in text:
            name, colon, rest = line.partition("#")[0].partition(":")
            if colon:
                found[name.split()[0]] = rest.split()
    return found


def reached(listed, names):
    """The named crates and all that they stand on, of the crates listed."""
    found, todo = set(), list(names)
    while todo:
        name = todo.pop()
        if name in listed and name not in found:
            found.add(name)
            todo += listed[name]
    return found


def link(one, other):
    """A second name for a file of a built library, or a copy: rt removes such a file before it makes it anew."""
    try:
        os.link(one, other)
    except OSError:
        shutil.copyfile(one, other)


def copy(top, to, names):
    """Copies crates, with the libraries that are built of them, which spares a proof where nothing has changed."""
    for file in ("crates.txt", "HANDLES"):
        if os.path.isfile(os.path.join(top, file)):
            with open(os.path.join(top, file), encoding="utf-8") as text:
                lines = text.readlines()
            if file == "crates.txt":
                lines = [line for line in lines if line.split(":")[0].split(" ")[0].strip() in names]
            with open(os.path.join(to, file), "w", encoding="utf-8") as text:
                text.writelines(lines)
    for name in names:
        here, there = os.path.join(top, "crates", name), os.path.join(to, "crates", name)
        for part in PARTS:
            if os.path.isdir(os.path.join(here, part)):
                shutil.copytree(os.path.join(here, part), os.path.join(there, part))
        built = os.path.join("out", "rlib")
        if os.path.isdir(os.path.join(here, built)):
            shutil.copytree(os.path.join(here, built), os.path.join(there, built), copy_function=link)


def words(seconds):
    """A time as '3 min 20 s'."""
    minutes, rest = divmod(int(seconds), 60)
    return "%d min %d s" % (minutes, rest) if minutes else "%d s" % rest


def at_signal(clean_up):
    """Has a signal that ends this process clean up first. One that is ignored, as under nohup, stays so."""
    def end(number, _frame):
        clean_up()
        signal.signal(number, signal.SIG_DFL)
        os.kill(os.getpid(), number)

    for number in (signal.SIGINT, signal.SIGTERM, signal.SIGHUP):
        if signal.getsignal(number) != signal.SIG_IGN:
            signal.signal(number, end)
