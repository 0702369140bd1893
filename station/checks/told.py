"""What is told of packages, which limits they keep, and what the map has of them."""
import dataclasses
import itertools
import re
import unittest

from checks.reading import DONE, answers, compact, read_data, read_module
from making import modules
from making.modules import DOSER, FAULTY, HARD, Assembly, Module, Parameter, Procedure, Service
from making.writer import STANDARD, Writer
from package import plug as plugs
from package.told import Told

DOSER_TEXT = Writer(DOSER, STANDARD).text()
# Of the reactor with all that has no place: the kind of note, where, and words of it.
HARD_NOTES = [
    ("lost", "views", "9 of 73: 'AI061', "),
    ("lost", "TI301 Temperatur innen", "the limits and alarms of its AnaMon"),
    ("changed", "views", "the name 'TI301 Temperatur innen' is TI301_Temperatur_innen_62ad"),
    ("changed", "QI_Leitfähigkeit", "its scale from 0 to 0.02 has only 20 of pol's thousandths"),
    ("changed", HARD.type, "the name 'Heizen/Kühlen' is Heizen_Kuehlen"),
    ("changed", HARD.type, "is Ein_sehr_langer_Name_eines__1e8c"),
    ("changed", HARD.type, "is Reaktor_R-301_Mehrzweck_beh_6394"),
    ("changed", HARD.type, "the version 'V2.1' is 2.1.0"),
    ("changed", "Heizen/Kühlen", "its own parameters ('Rampe') stand at each of its procedures"),
    ("changed", "Heizen/Kühlen", "2 procedures are the default; for pol it is number 1"),
    ("lost", "Heizen/Kühlen/Auf Temperatur", "its name: pol knows it by its number 1"),
    ("lost", "Heizen/Kühlen/Halten/Rampe", "VMax is read from the module while it runs; pol has what the file tells: 0.5"),
    ("changed", "Heizen/Kühlen/Halten/Rampe", "VMin 0.0001 lies between two thousandths: it is 1"),
    ("changed", "Heizen/Kühlen/Auf Temperatur/Solltemperatur [°C]", "VMax 180.12345 lies between two thousandths: it is 180123"),
    ("changed", "Heizen/Kühlen/Auf Temperatur/Grenze", "VMin is INF: no limit"),
    ("changed", "Ein sehr langer Name eines Dienstes, der keinem hilft/x/Zahl",
     "VMax 3000000000 is beyond what pol holds: it is 2147483647"),
    ("lost", "AnaView", "WQC, VUnit, VSclMin, VSclMax (the map has them)"),
    ("lost", "HMISet", "the whole of it"),
]
FAULTY_ERRORS = ["run/a: its number is '0'", "run/b: its number is '70000'", "Pump: 'next' is no version of three parts"]
# A change of the doser's manifest, and what is told of it.
CHANGES = [
    ("a service without its control", (b"ServiceControl", b"ServiceControls"),
     "error: dose: its RefID leads to no ServiceControl"),
    ("a control without an item", (b'Name="StateCur"', b'Name="State"'),
     "error: dose: its ServiceControl has no item for StateCur, "),
    ("a control without the operator's", (b'Name="CommandOp"', b'Name="Command"'),
     "lost: dose: its ServiceControl has no item for CommandOp: "),
    ("a parameter that can't be set", (b'Name="VExt"', b'Name="VSet"'),
     "error: dose/by_weight/amount: it has no item for VExt, "),
    ("a parameter of another class", (b"ParameterElement/AnaServParam", b"X/AnaMan"),
     "lost: dose/by_weight: ProcedureParameter 'amount': its RefID "),
    ("a view without its value", (b'Name="V"', b'Name="Value"'),
     "lost: dose_by_weight_dosed: the whole AnaView: it has no item for its value V"),
    ("no version", (b'Name="Version"', b'Name="Edition"'),
     "error: Doser: no version of the module is told (its writer has '1.0.0'); give it by --version"),
    ("a truth that is none", (b">true<", b">yes<"),
     "changed: dose/by_weight: IsSelfCompleting is 'yes', which is read as false"),
    ("two procedures of one number", (b"<Value>2<", b"<Value>1<"), "error: dose: two procedures have the number 1"),
    ("two views of one name", (b'Name="weight"', b'Name="dose_by_weight_dosed"'),
     "error: views: two views have the name 'dose_by_weight_dosed'"),
    ("a limit of another name", (b'Name="VMin"', b'Name="VLow"'),
     "changed: dose/by_weight/amount: no VMin in the file: no limit"),
    ("a whole set", (b"</InstanceHierarchy>", b'<InternalElement RefBaseSystemUnitPath="A/AlarmSet"/></InstanceHierarchy>'),
     "lost: AlarmSet: the whole of it"),
    ("an element without a class", (b"MTPServiceSUCLib/ReportValue", b""),
     "lost: dose/by_weight: an element without class 'dosed'"),
]


def services(count, procedures=1, parameters=0):
    params = tuple(Parameter(f"p{number}", "BinServParam") for number in range(parameters))
    made = tuple(Procedure(f"a{number}", number + 1, number == 0, parameters=params) for number in range(procedures))
    return Module("M", "1.0.0", tuple(Service(f"s{number}", made) for number in range(count)))


def views(count):
    return Module("M", "1.0.0", DOSER.services, tuple(Assembly(f"v{number}", "BinView") for number in range(count - 1)))


class Notes(unittest.TestCase):
    def test_of_the_hard_one_each_thing_is_told(self):
        read = read_module(HARD)
        for kind, where, words in HARD_NOTES:
            found = [note for note in read.notes if note.kind == kind and note.where == where and words in note.what]
            self.assertEqual(len(found), 1, (kind, where, words))
        self.assertEqual(read.of_kind("error"), [])
        self.assertEqual([len(read.of_kind(kind)) for kind in ("changed", "lost")], [20, 17])
        self.assertEqual(answers([read.line]), [DONE])

    def test_the_faulty_one_is_refused_with_its_errors(self):
        errors = read_module(FAULTY).of_kind("error")
        self.assertEqual(len(errors), len(FAULTY_ERRORS))
        for error, words in zip(errors, FAULTY_ERRORS):
            self.assertTrue(error.startswith(words), error)

    def test_each_change_is_told(self):
        for what, (old, new), words in CHANGES:
            self.assertIn(old, DOSER_TEXT, what)
            notes = [str(note) for note in read_data(DOSER_TEXT.replace(old, new, 1)).notes]
            self.assertTrue(any(note.startswith(words) for note in notes), (what, notes))

    def test_an_item_that_two_have_is_taken_from_none(self):
        at = DOSER_TEXT.index(b"<ExternalInterface")
        twice = DOSER_TEXT[at:DOSER_TEXT.index(b"</ExternalInterface>") + len(b"</ExternalInterface>")]
        read = read_data(DOSER_TEXT.replace(twice, twice + twice))
        self.assertTrue(any("WQC: 2 items of a server have its ID" in note for note in read.of_kind("lost")), read.notes)
        items = read.plug.map["services"]["dose"]["items"]
        self.assertTrue("StateCur" in items and "WQC" not in items)

    def test_a_data_assembly_whose_id_another_has_is_not_taken(self):
        _, amount, _, weight, *_ = re.findall(rb'Name="RefID"[^>]*>\s*<Value>([^<]*)<', DOSER_TEXT)
        read = read_data(DOSER_TEXT.replace(weight, amount))
        self.assertTrue(any("2 data assemblies have its RefID" in note for note in read.of_kind("lost")), read.notes)
        self.assertEqual(read.plug.description["services"][0]["procedures"][0]["params"], [])

    def test_a_note_is_one_short_line_whatever_the_names_are(self):
        odd = dataclasses.replace(DOSER, type="a\nb\u202e\u2028" + "x" * 5000)
        odd = dataclasses.replace(odd, assemblies=(Assembly("\t" * 500, "AnaMon"),))
        for note in map(str, read_module(odd).notes):
            self.assertTrue(note.isprintable() and len(note) < 1000, note)

    def test_pictures_are_told_and_a_set_that_only_points_is_not(self):
        picture = '<InternalElement RefBaseSystemUnitPath="A/Picture"><ExternalInterface ID="p"/></InternalElement>'
        more = f'{picture}{picture}<InternalElement RefBaseSystemUnitPath="A/ServiceSet"/></InstanceHierarchy>'
        notes = read_data(DOSER_TEXT.replace(b"</InstanceHierarchy>", more.encode(), 1)).of_kind("lost")
        self.assertIn("Picture: all 2 of them", notes)
        self.assertFalse(any("ServiceSet" in note for note in notes), notes)

    def test_where_a_role_is_told_in_place_of_a_class(self):
        path = b' RefBaseSystemUnitPath="MTPServiceSUCLib/Service">'
        role = b'><RoleRequirements RefBaseRoleClassPath="MTPServiceRCLib/[Service]"/>'
        self.assertEqual(read_data(DOSER_TEXT.replace(path, role)).plug, read_data(DOSER_TEXT).plug)


class Limits(unittest.TestCase):
    def test_as_many_as_pol_takes_and_one_more(self):
        rows = [(services(33), "33 services; pol takes 32"), (services(0), "M: no service; "),
                (services(1, 17), "17 procedures; pol takes 16"), (services(1, 0), "s0: no procedure; "),
                (services(1, 1, 33), "33 parameters; pol takes 32")]
        for module, words in rows:
            self.assertIn(words, "\n".join(read_module(module).of_kind("error")))
        most = [services(32), services(1, 16), services(1, 1, 32), views(64), views(65)]
        self.assertEqual(answers([read_module(module).line for module in most]), [DONE] * len(most))
        self.assertIn("views: 1 of 65: 'v63'; pol takes 64: choose by --only", read_module(views(65)).of_kind("lost"))

    def test_a_line_may_be_as_long_as_pol_takes(self):
        for more, is_error in ((0, False), (1, True)):
            told, description = Told(), long_description(plugs.MOST_BYTES + more)
            line = plugs.line_of(plugs.Plug(description, {}), plugs.Asked("T"), told)
            self.assertEqual((len(line), told.has_errors()), (plugs.MOST_BYTES + more, is_error))
            self.assertEqual(answers([line]) == [DONE], not is_error)


def long_description(length):
    """A description whose line has this length."""
    def described(letters, longer):
        """The names of parameters have this many letters, those of the first few one more."""
        left = itertools.chain(itertools.repeat(1, longer), itertools.repeat(0))
        return {"services": [described_service(number, letters, left) for number in range(32)], "type": "M",
                "variables": [], "version": "1.0.0"}

    def line(*sizes):
        return len(plugs.line_of(plugs.Plug(described(*sizes), {}), plugs.Asked("T"), Told()))
    letters = next(letters for letters in range(30, 0, -1) if line(letters, 0) <= length)
    return described(letters, length - line(letters, 0))


def described_service(number, letters, left):
    def params():
        return [{"kind": "StringServParam", "name": f"{each:02}" + "x" * (letters + next(left))} for each in range(32)]
    procedures = [{"default": each == 1, "number": each, "params": params(), "self_completing": True} for each in range(1, 17)]
    return {"name": f"s{number}", "procedures": procedures}


class Map(unittest.TestCase):
    def setUp(self):
        self.map = read_module(HARD).plug.map

    def test_it_has_the_names_of_the_package(self):
        services = self.map["services"]
        self.assertEqual(self.map["name"], HARD.type)
        self.assertEqual([entry["name"] for entry in services.values()], [service.name for service in HARD.services])
        self.assertEqual({number: each["name"] for number, each in services["Heizen_Kuehlen"]["procedures"].items()},
                         {"1": "Auf Temperatur", "2": "Halten"})
        self.assertEqual([each["name"] for each in services["Heizen_Kuehlen"]["procedures"]["1"]["params"].values()],
                         ["Rampe", "Solltemperatur [°C]", "Programm", "Mit Rückfluss", "Grenze"])
        self.assertEqual(self.map["variables"]["QI_Leitfaehigkeit"]["name"], "QI_Leitfähigkeit")

    def test_it_has_each_name_of_the_description(self):
        for module in (DOSER, modules.mixer("1.0.0"), HARD):
            plug = read_module(module).plug
            description, entries = plug.description, plug.map
            self.assertEqual([each["name"] for each in description["variables"]], list(entries["variables"]))
            self.assertEqual([each["name"] for each in description["services"]], list(entries["services"]))
            for service in description["services"]:
                found = {number: list(each["params"]) for number, each in
                         entries["services"][service["name"]]["procedures"].items()}
                self.assertEqual(found, {str(each["number"]): [param["name"] for param in each["params"]]
                                         for each in service["procedures"]})

    def test_it_has_each_item_with_its_server(self):
        plug = read_module(DOSER).plug
        self.assertEqual(plug.map["services"]["dose"]["items"]["CommandExt"], {
            "server": "Server", "node": "dose.CommandExt", "namespace": "urn:maker:Doser", "access": "3"})
        self.assertEqual(plug.map["servers"], {"Server": "opc.tcp://192.168.0.10:4840"})
        amount = plug.map["services"]["dose"]["procedures"]["1"]["params"]["amount"]
        self.assertEqual((amount["items"]["VExt"]["node"], amount["factor"]), ("dose_by_weight_amount.VExt", 1000))

    def test_it_says_which_value_belongs_to_which_procedure(self):
        value = read_module(DOSER).plug.map["services"]["dose"]["procedures"]["1"]["values"]
        self.assertEqual(value, [{"name": "dosed", "class": "ReportValue", "assembly": "dose_by_weight_dosed",
                                  "variable": "dose_by_weight_dosed"}])

    def test_a_view_has_one_name_whatever_is_asked_for(self):
        asked = (None, ("TI301 Temperatur innen", "AI069"))
        whole, chosen = (read_module(HARD, only=only).plug.map["variables"] for only in asked)
        self.assertEqual(list(chosen), ["TI301_Temperatur_innen_62ad", "AI069"])
        self.assertIn("TI301_Temperatur_innen_62ad", whole)

    def test_it_is_json(self):
        self.assertTrue(compact(self.map).isascii())
