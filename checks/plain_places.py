"""Placements of periodic flows read again from their definition: which ones are lawful beside those of the flows that
live, and the one that the scheduler takes, which is looked for minislot by minislot: the least phase, then the least
offset, then in each frame the least starts."""

# The most periodic starts in a place of the cycle.
MOST_STARTS = 40
MICROS_OF_TICK = 25, 4


class Places:
    """The part of a plain scheduler (plain.py) that knows where its flows have minislots."""

    def slots_of(self, micros):
        """The minislots of a time, and what is left over, in quarters of a tick's part."""
        ticks, quarters = MICROS_OF_TICK
        return divmod(micros * quarters, ticks * self.config["ticks"])

    def slots_of_flow(self, flow):
        return self.config["poll_slots"] if flow.kind == "polled" else self.bursts.unsolicited(flow.spec["size"])

    def last_of(self, flow, offset):
        """The last minislot of a frame at which a grant or poll may begin whose nominal time is at an offset."""
        jitter, _ = self.slots_of(flow.spec["jitter_us"])
        return min(offset + jitter, self.frame - self.slots_of_flow(flow))

    def frames_of(self, flow):
        """The frames of a flow's interval."""
        return self.slots_of(flow.spec["interval_us"])[0] // self.frame

    def taken_in(self, place):
        """The minislots that live placements have in the frames at this place of the cycle, those of flows that rest
        among them."""
        taken = set()
        for flow in self.flows.values():
            for start in flow.starts.get(place, ()):
                taken.update(range(start, start + self.slots_of_flow(flow)))
        return taken

    def has_room_for_starts(self, flow, places):
        """Whether these places of the cycle have no more starts than they may have, those of the flow among them."""
        live = [sum(len(it.starts.get(place, ())) for it in self.flows.values()) for place in places]
        return max(live) + flow.each() <= MOST_STARTS

    def place(self, flow):
        """Gives a flow the placement that the scheduler takes, where there is one."""
        taken = [self.taken_in(place) for place in range(self.config["cycle"])]
        interval = self.frames_of(flow)
        for phase in range(interval):
            places = range(phase, self.config["cycle"], interval)
            if not self.has_room_for_starts(flow, places):
                continue
            for offset in range(self.config["req_slots"], self.frame):
                found = {place: self.starts_in(flow, offset, taken[place]) for place in places}
                if all(found.values()):
                    return self.stand(flow, phase, offset, found)
        return False

    def stand(self, flow, phase, offset, starts):
        flow.interval, flow.phase, flow.offset, flow.starts = self.frames_of(flow), phase, offset, starts
        return True

    def starts_in(self, flow, offset, taken):
        """The least starts of the flow's grants in a frame of which so much is taken, or none where they do not fit."""
        last, slots = self.last_of(flow, offset), self.slots_of_flow(flow)
        starts, at = [], offset
        while len(starts) < flow.each():
            if at > last:
                return []
            if taken.isdisjoint(range(at, at + slots)):
                starts.append(at)
                at += slots
            else:
                at += 1
        return starts

    def reference_of(self, flow):
        """The first nominal time that is not below the start of the next frame."""
        frame = self.next // self.frame
        while frame % flow.interval != flow.phase or frame * self.frame + flow.offset < self.next:
            frame += 1
        return frame * self.frame + flow.offset

    def told_of(self, flow):
        """What is told of a flow's placement: its reference, and the starts in each frame in the order of the cycle."""
        starts = [start for place in sorted(flow.starts) for start in flow.starts[place]]
        return {"reference": self.reference_of(flow), "starts": starts}

    # A placement that somebody else tells.

    def adopt(self, flow, told):
        """Gives a flow the placement that a reply tells, where it tells one that is lawful."""
        if "starts" not in told:
            return False
        interval, (frame, offset) = self.frames_of(flow), divmod(told["reference"], self.frame)
        places, each = range(frame % interval, self.config["cycle"], interval), flow.each()
        starts = {place: told["starts"][at * each : (at + 1) * each] for at, place in enumerate(places)}
        is_first = self.next <= told["reference"] < self.next + interval * self.frame
        is_whole = len(told["starts"]) == each * len(places) and self.has_room_for_starts(flow, places)
        is_lawful = is_first and is_whole and offset >= self.config["req_slots"] and all(
            self.may_stand(flow, offset, starts[place], self.taken_in(place)) for place in places
        )
        return is_lawful and self.stand(flow, frame % interval, offset, starts)

    def may_stand(self, flow, offset, starts, taken):
        """Whether these starts stand one behind the other in their time, in minislots that nobody else has."""
        last, slots = self.last_of(flow, offset), self.slots_of_flow(flow)
        in_time = all(offset <= start <= last for start in starts)
        in_order = all(one + slots <= two for one, two in zip(starts, starts[1:]))
        return in_time and in_order and all(taken.isdisjoint(range(it, it + slots)) for it in starts)
