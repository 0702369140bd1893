"""A plant whose file is renewed under its station: nothing is lost, made twice or sent twice, also where the station or
the renewal is killed meanwhile."""
import signal
import subprocess
import sys
import threading
import time
import unittest

from checks import reading
from checks.broker import PATIENCE
from checks.plants import LEAD, SHIFT, Running
from checks.reading import STATION

DONE = {"done": True}
RENEW = STATION.parent / "renew"


class Renewing(unittest.TestCase):
    def setUp(self):
        self.plant = Running()
        self.addCleanup(self.plant.close)
        self.plant.up()
        self.plant.until_ready()

    def run_one(self, batch, recipe="refill", **tags):
        self.assertEqual(self.plant.start(batch, recipe, **(tags or {"tank": "TNK1"})), DONE)
        self.plant.until_closed(batch)

    def renew(self):
        """Has the file renewed, and gives how many entries it has then."""
        answer = self.plant.do("renew")
        self.assertEqual(answer["station"], "renewed", answer)
        return int(answer["why"])

    def stands(self, live):
        """What stands in the plant, without what passes: each module, and each open batch."""
        modules = [{key: module[key] for key in ("tag", "type", "version", "ticket", "holder", "watchers", "package")}
                   for module in live.told["modules"]]
        return modules, [{key: batch[key] for key in ("batch", "bind", "watch", "hold", "stands", "steps")}
                         for batch in live.told["batches"]]

    def ask_archive(self, count):
        """The archive has so many files and no fault."""
        said = subprocess.run([sys.executable, RENEW, "check", self.plant.site.folder, "--program", reading.PROGRAM[0]],
                              capture_output=True, text=True, check=False)
        self.assertEqual((said.returncode, said.stdout), (0, f"{count + 1} files, 0 faults\n"))

    def test_a_batch_goes_on_and_what_is_over_is_in_the_archive(self):
        plant = self.plant
        for number in (1, 2):
            self.run_one(f"b{number}")
        self.assertEqual(plant.start("b3", "blend", doser="DOS1", mixer="MIX1"), DONE)
        plant.until_state("DOS1", "dose", "Execute")
        self.assertEqual(plant.do("hold", batch="b3"), DONE)
        before = plant.until_state("DOS1", "dose", "Held")
        entries = self.renew()
        live = plant.live()
        self.assertEqual(self.stands(live), self.stands(before))
        self.assertLess(entries, before.told["entries"])
        self.assertEqual((live.told["entries"], live.told["closed"], live.alarms()), (entries, [], {}))
        self.assertEqual(live.recipe("refill")["batch"], "b4")
        self.assertIn("b2", [each["event"].get("batch") for each in live.told["last"]])
        self.assertEqual(plant.do("thaw", batch="b3"), DONE)
        live = plant.until_closed("b3")
        self.assertEqual(plant.listener.starts("DOS1", "dose"), (2, 2))
        self.assertEqual(plant.kill(signal.SIGTERM), 0)
        self.ask_archive(1)

    def test_what_a_shorter_file_does_not_tell_is_known_after_a_restart(self):
        plant = self.plant
        self.run_one("b7")
        self.assertEqual(plant.do("unplug", tag="DOS2"), DONE)
        self.renew()
        plant.kill()
        plant.up()
        live = plant.live()
        self.assertEqual([each["tag"] for each in live.told["absent"]], ["DOS2"])
        self.assertEqual(live.recipe("refill")["batch"], "b8")
        self.assertEqual(plant.do("plug", tag="DOS2", package="doser-3.0.mtp"), DONE)
        self.renew()
        plant.kill()
        plant.up()
        live = plant.until_ready()
        self.assertEqual((live.told["absent"], len(live.told["modules"])), ([], 4))

    def test_what_a_batch_left_running_is_known_in_a_renewed_file(self):
        """Also after a restart; where it came to rest meanwhile it isn't."""
        plant = self.plant
        self.assertEqual(plant.start("b1", "blend", doser="DOS1", mixer="MIX1"), DONE)
        self.assertEqual(plant.do("hold", batch="b1"), DONE)
        plant.until_state("DOS1", "dose", "Held")
        self.assertEqual(plant.do("abandon", batch="b1"), {"closed": "Abandoned"})
        self.renew()
        plant.until_alarm("left")
        plant.kill()
        plant.up()
        self.assertEqual(plant.until_ready().alarms()["left"]["batch"], "b1")
        self.assertEqual(plant.do("unplug", tag="DOS1"), DONE)
        plant.until_alarm("left", False)
        plant.kill()
        plant.up()
        self.assertEqual(plant.do("plug", tag="DOS1", package="doser.mtp"), DONE)
        self.assertNotIn("left", plant.until_ready().alarms())

    def test_a_module_that_is_away_comes_back_into_the_renewed_file(self):
        plant = self.plant
        self.run_one("b1")
        ticket = plant.do("exchange_begin", tag="MIX1")["ticket"]
        self.renew()
        self.assertEqual(plant.live().module("MIX1")["ticket"], ticket)
        plant.kill()
        plant.up()
        self.assertEqual(plant.do("exchange_end", tag="MIX1", package="mixer-2.2.mtp"), DONE)
        plant.until_state("MIX1", "stir", "Idle")
        self.run_one("b2", "blend", doser="DOS1", mixer="MIX1")

    def test_who_may_not(self):
        for by in (SHIFT, "eve"):
            self.assertEqual(self.plant.live(by).told["renew"], {"denied": True})
            self.assertEqual(self.plant.do("renew", by=by), {"denied": True})
        self.assertEqual(self.plant.live("").told["renew"], {"station": "nobody"})
        self.assertIsNone(self.plant.live(LEAD).told["renew"])
        self.assertFalse((self.plant.site.folder / "archive").exists())

    def test_not_while_a_command_is_open_that_a_shorter_file_does_not_tell(self):
        plant, why = self.plant, {"station": "has_command"}
        at = {"tag": "DOS2", "service": "dose"}
        self.assertEqual(plant.do("choose", word="Operator", **at), DONE)
        plant.until(lambda live: live.service("DOS2", "dose")["may"], "DOS2 takes commands by hand")
        plant.fault("DOS2", "ignore")
        self.assertIn("did", plant.do("desk", command=4, **at))
        self.assertEqual(plant.do("renew"), why)
        plant.until_alarm("command_no_effect")
        self.assertEqual(plant.live().told["renew"], why)
        self.assertEqual(plant.do("forget", **at), DONE)
        self.renew()

    def test_one_that_fails_leaves_all_as_it_was(self):
        plant = self.plant
        self.run_one("b1")
        place = plant.site.folder / "archive"
        place.write_text("in the way")
        before = plant.live()
        answer = plant.do("renew")
        self.assertEqual(answer["station"], "not_renewed")
        self.assertIn("archive", answer["why"])
        live = plant.live()
        self.assertEqual((live.told["entries"], live.outcomes()), (before.told["entries"], before.outcomes()))
        place.unlink()
        self.run_one("b2")
        self.renew()

    def test_a_station_that_is_killed_in_the_midst_of_it(self):
        """The renewal goes on to its end, or was not begun; the station that is run again waits for it."""
        plant = self.plant
        for number in range(1, 7):
            self.run_one(f"b{number}")
            asked = threading.Thread(target=plant.ask_and_lose, args=("renew",))
            asked.start()
            time.sleep(0.35 + number * 0.12)
            plant.kill()
            asked.join(PATIENCE)
            plant.up()
            live = plant.until_ready()
            self.assertEqual((live.told["batches"], live.recipe("refill")["batch"]), ([], f"b{number + 1}"))
        self.assertEqual(plant.listener.starts("TNK1", "fill"), (6, 6))
        self.renew()
        plant.kill(signal.SIGTERM)
        self.ask_archive(len(list((plant.site.folder / "archive").glob("*.plant"))))
