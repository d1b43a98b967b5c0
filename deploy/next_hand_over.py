"""What `hall-next` does until lanes weigh into the next book. All that can be done while they weigh
into the old one is done before it ends. Each step may be done twice; where one fails before the
next book is served, the old hall is begun again."""

import glob
import os
import time

import next_book
from next_list import Carried
from next_move import Move
from next_place import Failed, read, sync, write

# Units that ask at a door of the book, and may not meet another one there.
FOLLOWERS = ("hall-archive-follow@{}", "hall-standby@{}")
# Settings that the next book has too, and that are taken back with it.
SETTLED = ("env", "toml", "metrics.toml")
READ_ONLY = 0o440


class HandOver:
    """The steps until lanes weigh again: they stand from `stop` to `lead`."""

    def __init__(self, move: Move) -> None:
        self.move, self.place = move, move.place
        # the list of the old book, where this run has begun it
        self.carried: Carried | None = None

    def run(self) -> None:
        move = self.move
        for name, work in (
            ("lanes", self.note_lanes),
            ("prepare", self.prepare),
            ("aside", self.aside),
            ("stop", self.stop),
            ("make", self.make),
            ("show", self.show),
            ("serve", self.serve),
            ("lead", self.lead),
        ):
            move.step(name, work)

    def recover(self) -> None:
        """Where a kill left half of it, nothing of the next book stays. So too where the old hall
        was begun again meanwhile, by a person or with the machine: it may have more rows now."""
        move = self.move
        if move.known.get("serves"):
            return
        is_ended = "stop" in move.done()
        if is_ended and self.place.holds("is-active", "--quiet", f"hall@{move.old}"):
            print(f"hall-next: hall@{move.old} was begun again: all is done anew", flush=True)
            self.forget()
        elif move.known.get("forgets"):
            self.forget()

    # ---- while lanes weigh

    def listed(self) -> Carried:
        """The list of the old book before its hall ends."""
        if self.carried is None:
            env = read(self.move.setting(self.move.old, "env"))
            self.carried = Carried(self.place, self.move.book(self.move.old), env)
        return self.carried

    def note_lanes(self) -> None:
        """The batches that lanes weigh: what opens them again, product and density by volume."""
        move = self.move
        lanes = [] if move.known["plan"] else self.lanes()
        names = {lane.batch for lane in lanes if lane.batch}
        listing = self.listed().text() if names else ""
        of = {batch.name: batch.product for batch in next_book.batches(listing)}
        if lacks := sorted(names - of.keys()):
            raise Failed(f"a lane weighs {lacks[0]}, which {move.old} lacks")
        by_volume = next_book.by_volume(listing)
        move.keep(
            opened={
                name: of[name] + (self.density(name) if of[name] in by_volume else "")
                for name in sorted(names)
            }
        )

    def density(self, batch: str) -> str:
        said = self.place.of_served("report", self.move.book(self.move.old), "--batch", batch)
        return f" {said.splitlines()[0].rpartition(' density ')[2]}"

    def prepare(self) -> None:
        """Settings, plan and book of the next, by what the list says now."""
        self.settle()
        self.listed().go_on()
        self.draw_up(self.listed().text())

    def settle(self) -> None:
        """Settings and plan of the next, each as the old one's may be read."""
        move, (old, new) = self.move, (self.move.old, self.move.new)
        env, plan, metrics = (move.setting(old, kind) for kind in SETTLED)
        write(move.setting(new, "env"), read(env), like=env)
        if move.known["plan"]:
            said = read(move.known["plan"])
        else:
            reserve = next_book.reserve_of(read(plan))
            said = next_book.plan_of(self.lanes(), move.known["opened"], reserve)
        self.need_lanes(said, read(env))
        write(move.setting(new, "toml"), said, like=plan)
        if os.path.exists(metrics):
            said = next_book.metrics_moved(read(metrics), old, new)
            write(move.setting(new, "metrics.toml"), said, like=metrics)

    def need_lanes(self, plan: str, env: str) -> None:
        """A hall whose plan has other lanes than its settings ends as it begins."""
        lanes, wanted = self.planned(plan), next_book.setting(env, "LANES", 0)
        if len(lanes) != wanted:
            raise Failed(f"the next plan has {len(lanes)} lanes, and LANES is {wanted}")

    def draw_up(self, listing: str) -> None:
        """Makes the next book of a list of the old one, beside its place."""
        place, path = self.place, self.drawn
        if os.path.exists(path):
            os.remove(path)
        answers = place.of_hall("run", path, given=next_book.script_of(listing)).splitlines()
        if refused := [line for line in answers if line.startswith("refused")]:
            raise Failed(f"the next book refuses what the old one has: {refused[0]}")
        if why := next_book.difference(listing, place.listing(path)):
            raise Failed(f"the next book isn't as the old one: {why}")
        sync(path)

    @property
    def drawn(self) -> str:
        """Where the next book is until its list is compared with that of the old one at rest."""
        return f"{self.move.book(self.move.new)}.new"

    def lanes(self) -> list[next_book.Lane]:
        return self.planned(read(self.move.setting(self.move.old, "toml")))

    def planned(self, plan: str) -> list[next_book.Lane]:
        return next_book.lanes_of(self.place.run([f"{self.place.lib}/planned"], plan))

    def aside(self) -> None:
        """What follows the old book at its doors ends, all at once, before another book is served
        there. The hall goes on meanwhile, so that it doesn't matter how long they take."""
        move, place = self.move, self.place
        units = [unit.format(move.old) for unit in FOLLOWERS]
        ran = [unit for unit in units if place.holds("is-active", "--quiet", unit)]
        is_active = place.holds("is-active", "--quiet", f"hall@{move.old}")
        move.keep(
            ran=[*move.known.get("ran", []), *ran],
            active=bool(move.known.get("active")) or is_active,
        )
        if ran:
            place.control("stop", *ran)
        if self.carried and self.carried.go_on():
            move.need_closed(self.carried.text())

    # ---- while they stand

    def stop(self) -> None:
        self.move.keep(stopped=time.time())
        self.place.control("stop", f"hall@{self.move.old}")

    def stood(self) -> float:
        """For how many seconds lanes have stood."""
        return time.time() - float(self.move.known.get("stopped", time.time()))

    def make(self) -> None:
        """The list of the old book at rest decides: where it has what it had before, the book that
        was drawn up takes its place, else another one is."""
        move, place = self.move, self.place
        listing = self.last_list()
        move.need_closed(listing)
        if not self.is_drawn(listing):
            self.draw_up(listing)
        move.keep(carried=next_book.carried(listing))
        os.replace(self.drawn, move.book(move.new))
        sync(place.books)

    def last_list(self) -> str:
        """The list of the old book at rest, without reading it where its doors said all of it."""
        if self.carried and self.carried.is_whole():
            return self.carried.text()
        return self.place.listing(self.move.book(self.move.old))

    def is_drawn(self, listing: str) -> bool:
        """Whether the book that was drawn up is there, and as a list has it."""
        if not os.path.exists(self.drawn):
            return False
        return not next_book.difference(listing, self.place.listing(self.drawn))

    def show(self) -> None:
        """The front shows the next from now on, before it answers: its lines of acts name it."""
        self.show_instead(self.move.old, self.move.new)

    def show_instead(self, old: str, new: str) -> None:
        place = self.place
        for conf in glob.glob(f"{place.settings}/*/*.conf"):
            if address := next_book.address_of(read(conf), old):
                front = {"FRONT": os.path.dirname(conf), "SETTINGS": place.settings}
                place.run([*place.site, new, address], env=front)
        if place.holds("is-active", "--quiet", "nginx"):
            place.control("reload", "nginx")

    def serve(self) -> None:
        """The old book may be written no more, so that it isn't served after a start of the machine
        either; then the next one is."""
        move, place = self.move, self.place
        move.keep(serves=True)
        os.chmod(move.book(move.old), READ_ONLY)
        if place.is_unit(f"hall@{move.old}"):
            # (to read all units again takes a second, and the next start of the machine does it)
            place.control("enable", "--no-reload", f"hall@{move.new}")
            place.control("disable", "--no-reload", f"hall@{move.old}")
        if move.known["active"]:
            place.control("start", f"hall@{move.new}")

    def lead(self) -> None:
        """Lines and changing lanes speak to the next book's pipes."""
        units = []
        for kind in ("lane", "line"):
            for path in glob.glob(f"{self.place.settings}/*.{kind}.toml"):
                if self.lead_one(path):
                    name = os.path.basename(path).removesuffix(f".{kind}.toml")
                    units.append(f"hall-{kind}@{name}")
        if units:
            self.place.control("try-restart", *sorted(units))

    def lead_one(self, path: str) -> bool:
        """Has settings lead to the next book; whether they do."""
        old, new = self.move.old, self.move.new
        text = read(path)
        led = next_book.moved(text, old, new)
        if led != text:
            write(path, led)
        return f"/{new}/" in led or f"hall-{new}/" in led

    # ---- back

    def take_back(self) -> None:
        """The old hall goes on: the next one wasn't begun."""
        move, place = self.move, self.place
        self.forget()
        if move.known.get("active"):
            place.control("start", f"hall@{move.old}")
        for unit in move.known.get("ran", []):
            place.control("start", unit)
        move.keep(ran=[], active=False)

    def forget(self) -> None:
        """Nothing of the next book stays, and all is done anew: killed in its midst, it is done to
        its end first."""
        move = self.move
        move.keep(forgets=True)
        self.show_instead(move.new, move.old)
        settled = {move.setting(move.new, kind) for kind in SETTLED} - {move.known["plan"]}
        for path in (self.drawn, move.book(move.new), *settled):
            if os.path.exists(path):
                os.remove(path)
        move.keep(done=[], forgets=False)
