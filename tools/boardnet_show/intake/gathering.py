"""A folder's files as a package: what each is, what is left out, what was guessed, and the manifest of it all."""
import json
import os

from boardnet_show.formats import gerber_attributes
from boardnet_show.formats.layer_names import is_named_otherwise
from boardnet_show.formats.manifest import is_name
from boardnet_show.intake.mends import mended_files as mends

from . import archives, copper_layers, drill_files, file_kinds, netlist_files
from .file_names import MOST_BYTES, Refused, shown
from .package import DECLARATIONS, TIES

# What is ours in a folder: the manifest, and what `show` reads beside it.
OURS = ("m.json", TIES, DECLARATIONS)
NO_COPPER = "it is a Gerber file without the attribute TF.FileFunction, and no name says that it is copper"
OTHERWISE = "it is a Gerber file without the attribute TF.FileFunction, and its name says that it is no copper"


class Package:
    def __init__(self, homes):
        # The folder of each file, where they do not lie as they came.
        self.homes = homes
        self.layers, self.guesses, self.drills, self.netlists = [], [], [], []
        self.left_out, self.origins, self.board_layers = [], {}, None
        # What is left out, although it may be copper by what it says.
        self.doubtful = []
        # Files that count and cannot stand as they are.
        self.amiss = {}
        # Whether a Gerber file says of which nets or pins its objects are.
        self.has_names = False

    def home_of(self, name):
        """The folder in which a file came."""
        return self.homes.get(name, os.path.dirname(name))

    def leave_out(self, name, why):
        self.left_out.append((name, why))

    def add(self, name, data):
        """Takes in a file."""
        if name.endswith(".gbrjob"):
            self.read_job(data)
            self.leave_out(name, "it is a job file")
            return
        seen = file_kinds.look(data)
        if seen.kind == "gerber":
            self.add_gerber(name, seen.data)
        elif seen.kind == "drill":
            self.add_drills(name, *drill_files.of(name, seen.data))
        elif seen.kind == "netlist":
            self.netlists.append(netlist_files.Netlist(name, seen.data))
        else:
            self.leave_out(name, seen.word + (f" (after {seen.mark})" if seen.mark else ""))
        if seen.mark:
            self.amiss[name] = f"it begins with {seen.mark}, which `check` refuses: save it without one"
        if len(data) > MOST_BYTES:
            self.amiss[name] = f"it is longer than {MOST_BYTES} bytes"

    def add_drills(self, name, found, why):
        """Takes in a drill file, or leaves it out."""
        if found:
            self.drills.append(found)
        else:
            self.leave_out(name, why)

    def read_job(self, data):
        try:
            self.board_layers = int(json.loads(data.decode("utf-8-sig"))["GeneralSpecs"]["LayerNumber"])
        except (ValueError, KeyError, TypeError, OverflowError, RecursionError):
            pass

    def add_gerber(self, name, data):
        said = copper_layers.functions_of(data)
        self.has_names = (
            self.has_names or gerber_attributes.has_names(data, b".P") or gerber_attributes.has_names(data, b".N")
        )
        if not said:
            guess = copper_layers.guess_of(name, data)
            if guess:
                self.guesses.append((name, *guess))
            else:
                self.leave_out(name, OTHERWISE if is_named_otherwise(name, data) else NO_COPPER)
            return
        function, layer = said[0], copper_layers.one_layer(name, said)
        if layer:
            self.layers.append(layer)
            self.origins.setdefault(copper_layers.origin_of(data), name)
        elif function.startswith(("Plated,", "NonPlated,", "MixedPlating,")):
            found, why = drill_files.of_gerber(name, said, data)
            self.add_drills(name, found, why)
            if found:
                self.origins.setdefault(copper_layers.origin_of(data), name)
        else:
            why = f"its function is {shown(function)}"
            self.leave_out(name, why)
            if any(it.strip().lower().startswith("copper") for it in said):
                self.doubtful.append((name, why))

    def copper(self):
        """The copper layers in order, said or guessed."""
        if not self.layers and not self.guesses:
            raise Refused("no file says or looks like a copper layer: export the copper layers as Gerber X2")
        if not self.layers:
            layers = copper_layers.in_order(self.guesses)
        else:
            layers = copper_layers.judge(self.layers)
            for name, _, why in self.guesses:
                if not self.is_whole(layers):
                    raise Refused(
                        f"{name} looks like copper ({why}) and has no attribute, while other layers have one: export"
                        " all as Gerber X2"
                    )
                self.leave_out(
                    name,
                    (
                        f"it looks like copper ({why}), but the layers that say what they are make a whole board"
                        " without it"
                    ),
                )
        if self.board_layers not in (None, len(layers)):
            raise Refused(
                f"the job file speaks of {self.board_layers} copper layers, and there are {len(layers)}: export every"
                " copper layer"
            )
        if len([it for it in self.origins if it is not None]) > 1:
            raise Refused(
                f"{' and '.join(self.origins.values())} count from different origins (TF.SameCoordinates): export all"
                " layers at once"
            )
        return layers

    def is_whole(self, layers):
        """Whether layers that say what they are leave no place for another: they end with a bottom one, or are as many
        as the job file says."""
        return self.board_layers == len(layers) or len(layers) > 1 and layers[-1].side == "Bot"

    def declare(self, drilled):
        """Has drill files spans that are declared; refuses such a file that is not there, or says otherwise itself."""
        for name, first, last in drilled:
            found = next((it for it in self.drills if it.name == name), None)
            if not found:
                raise Refused(f"{name} is declared to have plated holes, and is no drill file here that may have some")
            if not found.why and found.span != (first, last):
                raise Refused(
                    f"{name} is declared to span layers {first} to {last}, and says itself that it spans"
                    f" {found.span[0]} to {found.span[1]}"
                )
            if found.span == (0, 0):
                raise Refused(f"{name} is declared to have plated holes, and {found.why}")
            found.span, found.why = (first, last), ""

    def plated(self, layers):
        """The drill files of plated holes, and those that are taken for unplated ones."""
        unplated = [it for it in self.drills if it.span == (0, 0)]
        return drill_files.judge([it for it in self.drills if it not in unplated], layers), unplated

    def need_holes(self, netlist, layers, plated, may_lack):
        """Refuses a board of several layers without holes where the netlist speaks of some."""
        if layers > 1 and not plated and netlist.through and not may_lack:
            raise Refused(
                f"{netlist.name} has {netlist.through} records of through holes (317), and there is no drill file of"
                " plated holes, which join the layers: export it in the Excellon format; where the board truly has no"
                " plated hole, say --no-drills"
            )

    def need_names(self, names):
        for name in names:
            if not is_name(name):
                raise Refused(
                    f"the name {shown(name)} is not 1 to 200 printable ASCII characters, and `check` takes no other:"
                    " rename the file"
                )
            if name in self.amiss:
                raise Refused(f"{name}: {self.amiss[name]}")


class Plan:
    """The manifest that would be written, what is guessed in it, and what else is to be said.

    With `may_lack_netlist` a folder without one gets a plan all the same, where its copper has names: the netlist is
    "", and who asks makes one.
    """

    def __init__(self, package, wanted, may_lack_holes, may_lack_netlist=False, drilled=()):
        layers = package.copper()
        package.declare(drilled)
        may_lack = may_lack_netlist and wanted is None and package.has_names and not package.netlists
        netlist = netlist_files.Netlist("", b"") if may_lack else netlist_files.choose(package.netlists, wanted)
        plated, unplated = package.plated(len(layers))
        package.need_holes(netlist, len(layers), plated, may_lack_holes)
        package.need_names([it.name for it in [*layers, *plated, *([] if may_lack else [netlist])]])
        self.guessed = [(it.name, f"copper layer {it.number}", it.why) for it in layers if it.why]
        self.guessed += [
            (it.name, f"plated holes from layer {it.span[0]} to {it.span[1]}", it.why) for it in plated if it.why
        ]
        self.guessed += [(it.name, "unplated holes, left out", it.why) for it in unplated]
        self.guessed += [
            (it.name, what, "such files lie in several folders, which may be of several boards")
            for what, files in (("copper", layers), ("plated holes", plated))
            for it in files
            if not it.why and len({package.home_of(each.name) for each in files}) > 1
        ]
        if not package.is_whole(layers):
            # A name may say that a file is no copper where names say what is; where attributes do, and may lack one, it
            # does not.
            whys = (NO_COPPER,) if layers[0].why else (NO_COPPER, OTHERWISE)
            doubtful = [it for it in package.left_out if it[1] in whys or it in package.doubtful]
            self.guessed += [(name, "no copper, left out", why) for name, why in doubtful]
        self.has_points = netlist.records > 0
        self.netlist = netlist.name
        self.manifest = {
            "copper": [it.name for it in layers],
            "drills": [{"file": it.name, "from": it.span[0], "to": it.span[1]} for it in plated],
            "netlist": netlist.name,
        }

    def manifest_text(self):
        return json.dumps(self.manifest, separators=(",", ":")) + "\n"


def gather(folder, homes=None):
    """The package of a folder's files; where none of them may be copper, with those of the folders in it. `homes` are
    the folders in which they came, where they have been laid together."""
    names = sorted(os.listdir(folder))
    package = gathered(folder, names, homes or {})
    if package.layers or package.guesses:
        return package
    inner = archives.inner_files(folder)
    entered = {name.split("/")[0] for name in inner}
    return gathered(folder, [*(name for name in names if name not in entered), *inner], {}) if inner else package


def gathered(folder, names, homes):
    """The package of these files of a folder."""
    package = Package(homes)
    for name in names:
        path = os.path.join(folder, name)
        if name in OURS:
            continue
        if mends.is_copy(name, names):
            package.leave_out(name, "it is the mended copy of another file")
            continue
        if not os.path.isfile(path):
            package.leave_out(name, "it is a folder" if os.path.isdir(path) else "it is no plain file")
            continue
        try:
            with open(path, "rb") as file:
                data = file.read(MOST_BYTES + 1)
        except OSError as error:
            raise Refused(f"{shown(name)} cannot be read: {error.strerror}") from None
        package.add(name, data)
    return package
