"""What the program nlvol makes of bytes in the place of an image: it refuses them by the first condition of
docs/SPECIFICATION.md that they fail, or opens them, and saves just these, under the present mark. Scripts of
this folder give it images, and compare."""

import os
import re
import subprocess
import tempfile
from collections import deque
from concurrent.futures import ThreadPoolExecutor

from volume import SECOND_MARK

# Where files cost least.
MEMORY = "/dev/shm"

# The seconds of one run. The proved program takes some thousandths of one.
LIMIT = 600

# The verdicts of images that are refused.
CONDITIONS = [f"condition {number}" for number in range(1, 12)]

REFUSED = re.compile(rb"image: error 24 BadImage ([1-9]|10|11)\n")


def files_in(folder):
    """The bytes of each file."""
    found = {}
    for name in os.listdir(folder):
        with open(os.path.join(folder, name), "rb") as file:
            found[name] = file.read()
    return found


def first_other(due, got):
    """The first place where bytes differ, or where one of both ends."""
    places = range(min(len(due), len(got)))
    return next((place for place in places if due[place] != got[place]), len(places))


def told(ran):
    """How a run ended, for a reader."""
    return f"status {ran.returncode}, printed {ran.stdout[:80]}, told {ran.stderr[:200]}"


def why_changed(ran, files, kept):
    """How a run that is never due ended, where these files would be due of an image that is kept."""
    saved = "nothing saved"
    if "saved" in files:
        saved = f"{len(files['saved'])} bytes saved"
        if files["saved"] != kept["saved"]:
            saved += f", other ones from {first_other(kept['saved'], files['saved'])} on"
    return f"changed: {told(ran)}, {saved}, files {' '.join(sorted(files))}"


def judged(image, ran, files):
    """The verdict on an image, by a run and the files that it left."""
    kept = {"opened": image, "saved": SECOND_MARK + image[len(SECOND_MARK) :]}
    refused = REFUSED.fullmatch(ran.stderr)
    if ran.stdout == b"" and ran.returncode == 1 and refused and files == {"opened": image}:
        return f"condition {refused.group(1).decode()}"
    if ran.stdout == b"" and ran.returncode == 0 and ran.stderr == b"" and files == kept:
        return "kept"
    return why_changed(ran, files, kept)


def session_on(program, image, script=b""):
    """Opens an image, does a script, and saves the volume elsewhere. Returns what ran, or None where it did
    not end, and the files that it left: `opened`, and `saved` where something was saved."""
    with tempfile.TemporaryDirectory(dir=MEMORY if os.path.isdir(MEMORY) else None) as folder:
        opened, saved = os.path.join(folder, "opened"), os.path.join(folder, "saved")
        with open(opened, "wb") as file:
            file.write(image)
        words = [program, "--open", opened, "--save", saved]
        try:
            ran = subprocess.run(words, input=script, capture_output=True, timeout=LIMIT, check=False)
        except subprocess.TimeoutExpired:
            ran = None
        return ran, files_in(folder)


def verdict_on(program, image):
    """What becomes of an image that is opened, and saved elsewhere behind an empty script. `kept`: just these
    bytes were saved, under the present mark. `condition N`: it was refused by that one, and nothing was
    saved. Else a text that begins with `changed`, which is never due."""
    ran, files = session_on(program, image)
    if ran is None:
        return f"changed: it did not end in {LIMIT} seconds"
    return judged(image, ran, files)


def verdicts_on(program, images):
    """Each name with the verdict on its image, in their order, of pairs of both. As many runs go side by side
    as there are processors, and few images are taken before it is their turn."""
    processors = os.cpu_count() or 1
    with ThreadPoolExecutor(processors) as pool:
        running = deque()
        for name, image in images:
            running.append((name, pool.submit(verdict_on, program, image)))
            if len(running) >= 4 * processors:
                name, verdict = running.popleft()
                yield name, verdict.result()
        for name, verdict in running:
            yield name, verdict.result()
