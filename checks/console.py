"""The console blocks of a page: each is a command behind `$ `, in several lines behind `> `, and what it writes."""
import pathlib, re, shutil, subprocess


def blocks(page):
    """The commands of a page, each with what is written there."""
    for block in re.findall(r"^```console\n(.*?)^```$", pathlib.Path(page).read_text(), re.M | re.S):
        written = block.splitlines(keepends=True)
        more = next((n for n, line in enumerate(written) if n and not line.startswith("> ")), len(written))
        yield "".join(line[2:] for line in written[:more]).strip(), "".join(written[more:])


def absent_tools(command):
    """The tools that a command needs, and that are not there."""
    tools = [tool for tool in ("jq", "gnuplot", "pv", "sqlite3") if re.search(rf"\b{tool} ", command)]
    return [tool for tool in tools if not shutil.which(tool)]


def fault_of(command, wanted, **how):
    """Runs a command; what is to be said where it does not write what the page has. Behind `...` it may write more."""
    done = subprocess.run(["bash", "-c", command], stdin=subprocess.DEVNULL, capture_output=True, **how)
    out = (done.stdout + done.stderr).decode()
    front = wanted.removesuffix("...\n")
    if out == wanted or front != wanted and out.startswith(front):
        return None
    return f"{command}\n  wrote\n{out}  and the page has\n{front}"
