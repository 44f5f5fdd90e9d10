"""Random calls on a volume of the module for Python, beside trees of dictionaries."""

import random


class Model:
    """Trees as dictionaries: a directory is one, and a file is bytes. A kept checkpoint has a copy."""

    def __init__(self):
        self.tree, self.kept, self.latest, self.dirty = {}, {1: ({}, False)}, 1, False

    def node(self, tree, path):
        for name in filter(None, path.split("/")):
            if not isinstance(tree, dict):
                raise NotADirectoryError
            if name not in tree:
                raise FileNotFoundError
            tree = tree[name]
        return tree

    def place(self, path):
        above, name = path.rsplit("/", 1)
        found = self.node(self.tree, above)
        if not isinstance(found, dict):
            raise NotADirectoryError
        return found, name

    def put(self, path, data):
        folder, name = self.place(path)
        if isinstance(folder.get(name), dict):
            raise IsADirectoryError
        folder[name] = data
        self.dirty = True

    def mkdir(self, path):
        folder, name = self.place(path)
        if name in folder:
            raise FileExistsError
        folder[name] = {}
        self.dirty = True

    def remove(self, path, is_dir):
        folder, name = self.place(path)
        if name not in folder:
            raise FileNotFoundError
        if isinstance(folder[name], dict) != is_dir:
            raise NotADirectoryError if is_dir else IsADirectoryError
        if is_dir and folder[name]:
            raise OSError
        del folder[name]
        self.dirty = True

    def mkcp(self, snapshot):
        self.latest += 1
        self.kept[self.latest] = (copied(self.tree), snapshot)
        self.dirty = False
        return self.latest


def copied(tree):
    return {name: copied(it) if isinstance(it, dict) else it for name, it in tree.items()}


def read_whole(tree, path="/"):
    found = {}
    for name, is_dir in tree.scandir(path):
        below = path.rstrip("/") + "/" + name
        found[name] = read_whole(tree, below) if is_dir else tree.read_bytes(below)
    return found


def alike(call, other, what, due):
    """That both give the same, or are refused by the same kind."""
    ended = []
    for it in (call, other):
        try:
            ended.append(("answers", it()))
        except OSError as error:
            kinds = (FileNotFoundError, NotADirectoryError, IsADirectoryError, FileExistsError)
            ended.append(("refuses", next((kind.__name__ for kind in kinds if isinstance(error, kind)), "OSError")))
    due(ended[0], ended[1], what)


def random_session(nlvol, seed, steps, due):
    draw = random.Random(seed)
    paths = ["/a", "/b", "/d", "/d/a", "/d/e", "/d/e/a", "/b/a"]
    v, model, moment = nlvol.new(segments=256, blocks=32, moment=0), Model(), 0
    for step in range(steps):
        what, path, moment = f"seed {seed}, step {step}", draw.choice(paths), moment + draw.randrange(3)
        turn = draw.randrange(12)
        if turn < 4:
            data = draw.randbytes(draw.choice([0, 1, 1023, 1024, 5000]))
            alike(lambda: v.write_bytes(path, data), lambda: model.put(path, data), what, due)
        elif turn == 4:
            alike(lambda: v.mkdir(path), lambda: model.mkdir(path), what, due)
        elif turn == 5:
            alike(lambda: v.unlink(path), lambda: model.remove(path, False), what, due)
        elif turn == 6:
            alike(lambda: v.rmdir(path), lambda: model.remove(path, True), what, due)
        elif turn == 7:
            snapshot, room, above = draw.random() < 0.5, v.room(), v.room(exact=False)
            due((room.blocks <= room.free, room.blocks <= above.blocks, above.free), (True, True, room.free), what)
            due(v.mkcp(snapshot, moment), model.mkcp(snapshot), what)
        elif turn == 8:
            number, snapshot = draw.choice([*model.kept]), draw.random() < 0.5
            v.chcp(number, snapshot)
            model.kept[number] = (model.kept[number][0], snapshot)
        elif turn == 9 and draw.random() < 0.3:
            first, last = sorted((draw.randint(1, model.latest), draw.randint(1, model.latest)))
            between = [it for it in model.kept if first <= it <= last]
            gone = [it for it in between if not model.kept[it][1] and it != model.latest]
            if between:
                due(v.rmcp(first, last), (len(gone), len(between) - len(gone)), what)
            for it in gone:
                del model.kept[it]
        elif turn == 10:
            number = draw.choice([*model.kept])
            due(read_whole(v.at(number)), model.kept[number][0], f"{what}, checkpoint {number}")
        elif turn == 11 and draw.random() < 0.3:
            if model.dirty:
                model.mkcp(False)
            image = v.image(moment)
            v.close()
            v = nlvol.load(image)
        due(read_whole(v), model.tree, what)
        due([(it.number, it.snapshot) for it in v.checkpoints()], [(it, model.kept[it][1]) for it in model.kept], what)
        if v.info().clean < 40:
            for it in v.segments():
                if it.state == "dirty" and not it.needed:
                    v.retire(it.number)
    v.close()
