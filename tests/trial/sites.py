"""A site that 'central run' runs, with its files, its keys and an operator's connection."""
import asyncio
import json
import os
import pathlib
import signal
import subprocess
import time
import urllib.request

from point import FAILURES, connected


class Site:
    def __init__(self, program, folder, name, ports, points):
        self.program, self.name = program, name
        self.folder = pathlib.Path(folder)
        self.file, self.data = self.folder / f"{name}.json", self.folder / f"{name}.data"
        self.url, self.status = f"ws://127.0.0.1:{ports[0]}", f"http://127.0.0.1:{ports[1]}"
        self.names = [f"{name}{number:02}" for number in range(1, points + 1)]
        self.data.mkdir(exist_ok=True)
        self.file.write_text(json.dumps({"unit": "A", "points": [
            {"id": point, "ceiling": 63.0, "connectors": [32.0, 32.0]} for point in self.names]}))
        self.keys, self.log, self.process = {}, open(self.folder / f"{name}.log", "a"), None
        with open(self.folder / f"{name}.keys", "w") as keys:
            for user in self.names + [f"ann{name}"]:
                made = subprocess.run([program, "key", "--name", user] + ["--operator"] * user.startswith("ann"),
                                      capture_output=True, text=True, check=True)
                keys.write(made.stdout)
                self.keys[user] = made.stderr.strip().split(":")[1]

    def start(self):
        self.process = subprocess.Popen(
            [self.program, "run", "--site", self.file, "--data", self.data, "--listen", self.url[5:],
             "--keys", self.folder / f"{self.name}.keys", "--status", self.status[7:]], stdout=self.log, stderr=self.log)

    def kill(self, how=signal.SIGKILL):
        os.kill(self.process.pid, how)
        return self.process.wait()

    def show(self):
        """What 'central show --data' says, by the point's identity."""
        shown = subprocess.run([self.program, "show", "--site", self.file, "--data", self.data, "--json"],
                               capture_output=True, text=True, check=True)
        return {point["id"]: point for point in json.loads(shown.stdout)["points"]}

    def state(self):
        """What the status port says, by the point's identity; None where nobody tells."""
        try:
            with urllib.request.urlopen(self.status + "/state.json", timeout=20) as told:
                return {point["id"]: point for point in json.load(told)["points"]}
        except OSError:
            return None

    async def ask(self, point, action, payload):
        """An operator's CALL, sent anew until it is answered."""
        user = f"ann{self.name}"
        while True:
            try:
                async with connected(f"{self.url}/operator/{point}", user, self.keys[user]) as opened:
                    await opened.send(json.dumps([2, "o", action, payload]))
                    return json.loads(await asyncio.wait_for(opened.recv(), 30))
            except FAILURES:
                await asyncio.sleep(1)

    async def up(self):
        """Waits until the status is there. A program that ends is started again, as its unit does."""
        begun = time.monotonic()
        while await asyncio.to_thread(self.state) is None:
            if self.process.poll() is not None:
                print("ended", self.name, self.process.returncode, flush=True)
                self.start()
            await asyncio.sleep(1)
        return time.monotonic() - begun
