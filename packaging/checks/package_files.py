"""The package's own files, read as what they mean: its services' powers and what its installation
makes."""

import datetime
import json
import os
import re
import shutil
import subprocess

from cases import TOP, needs
from clients import Server, wants
from harness import ScriptCase, read_text, run, write

# What systemd has to say that popbox.service shuts off, as the service's own page promises: it may
# write only to its state folder, and has none of the system's powers.
SHUT = """CapabilityBoundingSet=~CAP_SYS_ADMIN CapabilityBoundingSet=~CAP_KILL LockPersonality=
    CapabilityBoundingSet=~CAP_(DAC_*|FOWNER|IPC_OWNER) MemoryDenyWriteExecute= NoNewPrivileges=
    CapabilityBoundingSet=~CAP_SYS_PTRACE PrivateDevices= PrivateTmp= ProcSubset= ProtectClock=
    ProtectControlGroups= ProtectHome= ProtectHostname= ProtectKernelLogs= ProtectKernelModules=
    ProtectKernelTunables= ProtectProc= ProtectSystem= RestrictNamespaces=~user RestrictRealtime=
    RestrictAddressFamilies=~AF_UNIX RestrictAddressFamilies=~AF_PACKET RestrictSUIDSGID= UMask=
    SystemCallArchitectures= SystemCallFilter=~@mount SystemCallFilter=~@debug User=/DynamicUser=
    SystemCallFilter=~@resources SystemCallFilter=~@reboot""".split()
# Has a script run with folders of its own for /etc and /var/lib.
SCRATCH = 'mount --bind {0}/etc /etc && mount --bind {0}/lib /var/lib && exec "$@"'


class Units(ScriptCase):
    def settings(self, name):
        """What a unit sets, by the names: of each its words, as systemd adds them up."""
        found = {}
        for line in read_text(f"{self.packaging}/{name}").replace("\\\n", " ").splitlines():
            if it := re.match(r"(\w+)=(.*)", line):
                found[it[1]] = found.get(it[1], []) + it[2].split() if it[2] else []
        return found

    def test_the_service_is_shut_in(self):
        """The service answers this machine alone, writes to its state folder alone, and has none
        of the powers that systemd can take away, but for those that it needs."""
        needs("systemd-analyze")
        path = f"{self.packaging}/popbox.service"
        told = run("systemd-analyze", "security", "--offline=true", "--json=short", path)[1]
        told = {it["name"]: it for it in json.loads(told)}
        wants([it for it in SHUT if not told[it]["set"]], [])
        wants("with only localhost" in told["IPAddressDeny="]["description"], True)
        unit = self.settings("popbox.service")
        names = ("ReadWritePaths", "BindPaths", "AmbientCapabilities", "SupplementaryGroups")
        wants([it for it in names if unit.get(it)], [])
        found = [unit[it] for it in ("ProtectSystem", "StateDirectory", "StateDirectoryMode")]
        wants(found, [["strict"], ["popbox"], ["0711"]])

    def test_the_service_asks_for_the_store_that_it_serves(self):
        """popbox.service, popbox-ready and popbox-backup name the same store."""
        unit, store = self.settings("popbox.service"), "/var/lib/popbox/mail.db"
        ready, served = "/usr/lib/popbox/popbox-ready", " ".join(unit["ExecStart"])
        wants(unit["ExecStartPre"], [ready, "--before", store])
        wants(unit["ExecStartPost"], [ready, "$MAINPID", store])
        wants(unit["ExecStopPost"], [ready, "--after", store])
        wants(served.count(f"/usr/bin/popbox serve --store {store} --spool "), 1)
        found = [unit[it] for it in ("User", "UMask", "StateDirectory")]
        wants(found, [["popbox"], ["0077"], ["popbox"]])
        copies = self.settings("popbox-backup.service")["ExecStart"]
        wants(copies, ["/usr/sbin/popbox-backup", "$POPBOX_BACKUP_OPTIONS"])
        backup = read_text(f"{self.packaging}/popbox-backup")
        wants(re.search(r"^store=(\S+)", backup, re.M)[1], store)

    def test_each_unit_is_one_that_systemd_knows(self):
        """systemd knows each section and setting of the units."""
        needs("systemd-analyze")
        for name in ("popbox.service", "popbox-backup.service", "popbox-backup.timer"):
            why = run("systemd-analyze", "verify", f"{self.packaging}/{name}")[2]
            lines = [it for it in why.splitlines() if name in it and "Unknown" in it]
            with self.subTest(name=name):
                wants(lines, [])

    def test_the_timer_goes_off_each_night(self):
        """popbox-backup.timer goes off once a night, and after a night in which nothing ran."""
        needs("systemd-analyze")
        unit = self.settings("popbox-backup.timer")
        moment = " ".join(unit["OnCalendar"])
        told = run("systemd-analyze", "calendar", "--iterations=3", moment)[1]
        days = re.findall(r"(?:elapse|Iter.*|Iteration.*): \w+ (\S+) 0[0-5]:", told)
        days = [datetime.date.fromisoformat(it) for it in days]
        wants([(after - day).days for day, after in zip(days, days[1:])], [1, 1])
        wants(unit["Persistent"], ["yes"])

    def test_the_nightly_backup_may_do_what_it_must(self):
        """With the powers of popbox-backup.service, and no others, popbox-backup copies the store
        of a server of another user's."""
        self.needs_root()
        needs("setpriv")
        unit = self.settings("popbox-backup.service")
        powers = [it.lower().removeprefix("cap_") for it in unit["CapabilityBoundingSet"]]
        os.chmod(self.folder, 0o755)
        os.chown(self.spool, 65534, 65534)
        home = f"{self.folder}/home"
        os.mkdir(home)
        os.chown(home, 65534, 65534)
        store, program = f"{home}/mail.db", shutil.copy(self.program, self.folder)
        os.chmod(program, 0o755)
        server = Server(program, self.folder, "--store", store, user=65534, group=65534)
        self.addCleanup(server.end)
        os.chmod(home, 0o700)
        words = [f"{self.packaging}/popbox-backup", "--store", store, "--program", program]
        words += ["--into", f"{self.folder}/copies"]
        drop = ["setpriv", "--no-new-privs", f"--bounding-set=-all,+{',+'.join(powers)}"]
        status, said, why = run(*drop, *words)
        wants((status, why), (0, ""))
        wants(bool(re.search(r"; clients waited \d+ ms\n", said)), True)


class Installation(ScriptCase):
    """postinst, in an /etc and a /var/lib of its own."""

    def setUp(self):
        super().setUp()
        self.needs_root()
        needs("adduser", "unshare")
        self.state, self.inside = "/var/lib/popbox", f"{self.folder}/lib/popbox"
        subprocess.run(["cp", "-a", "/etc", f"{self.folder}/etc"], check=True)
        os.mkdir(f"{self.folder}/lib")
        os.chmod(self.folder, 0o711)
        self.called = write(f"{self.folder}/called", "")
        for it in ("deb-systemd-helper", "deb-systemd-invoke", "systemctl"):
            self.command(f"bin/{it}", f'echo {it} "$@" >>{self.called}')

    def inside_of(self, *words):
        """What a command gives in the /etc and /var/lib of the case."""
        mount = SCRATCH.format(self.folder)
        env = {**os.environ, "PATH": f"{self.folder}/bin:{os.environ['PATH']}"}
        ran = run("unshare", "--mount", "sh", "-c", mount, "sh", *words, env=env)
        self.said = ran[2]
        wants((words, ran[0], ran[2] if ran[0] else ""), (words, 0, ""))
        return ran[1]

    def modes(self):
        paths = [self.state, f"{self.state}/spool"]
        return self.inside_of("stat", "-c", "%U %G %a", *paths).splitlines()

    def test_an_installation_makes_what_only_its_users_may_open(self):
        """The state folder is popbox's, and the spool is written by popbox and the group
        popbox-spool alone, whose user isn't in popbox's group; neither user can log in."""
        self.calls("postinst", "configure", "")
        wants(self.modes(), ["popbox popbox 711", "popbox popbox-spool 2770"])
        groups = [self.inside_of("id", "-Gn", it).split() for it in ("popbox", "popbox-spool")]
        wants(groups, [["popbox", "popbox-spool"], ["popbox-spool"]])
        for line in self.inside_of("getent", "passwd", "popbox", "popbox-spool").splitlines():
            wants(line.rpartition(":")[2], "/usr/sbin/nologin")
        # An upgrade leaves the spool as an administrator has it.
        os.chmod(f"{self.inside}/spool", 0o2750)
        self.calls("postinst", "configure", "0.1.0-1")
        wants(self.modes(), ["popbox popbox 711", "popbox popbox-spool 2750"])

    def test_a_file_system_of_its_own_is_given_to_popbox(self):
        """A state folder of root's, as of a file system that was mounted there, is popbox's then,
        and a spool in it is left as it is."""
        os.makedirs(f"{self.inside}/spool", 0o700)
        self.calls("postinst", "configure", "")
        wants(self.modes(), ["popbox popbox 711", "root root 700"])

    def test_an_upgrade_says_that_no_older_package_opens_the_store(self):
        """It says so if the store is of version 1 or 2, which the start carries over."""
        self.calls("postinst", "configure", "")
        wants((self.said, os.listdir(self.inside)), ("", ["spool"]))
        store, told = f"{self.inside}/mail.db", "popbox: no older package opens the store"
        older = [f"{TOP}/trials/older-store", "make"]
        for made, is_told in (
            ([*older, "1", "0", store], True), ([*older, "2", "0", store], True),
            ([self.program, "replay", "--store", store], False),
        ):
            wants((made, run(*made)[0]), (made, 0))
            self.calls("postinst", "configure", "0.1.0-1")
            wants((made, told in self.said), (made, is_told))
            os.remove(store)

    def calls(self, script, *words):
        """What a script of the package has systemd do, on a machine that systemd runs."""
        text = read_text(f"{self.packaging}/debian/{script}")
        os.makedirs(f"{self.folder}/run/systemd/system", exist_ok=True)
        text = text.replace("/run/systemd", f"{self.folder}/run/systemd")
        for it in ("/usr/share/popbox/", "/usr/lib/popbox/"):
            text = text.replace(it, f"{self.packaging}/")
        os.chmod(write(f"{self.folder}/{script}", text), 0o755)
        write(self.called, "")
        self.inside_of(f"{self.folder}/{script}", *words)
        calls = re.findall(r"(enable|start|restart|stop) (popbox.*)", read_text(self.called))
        return [f"{does} {units}" for does, units in calls]

    def test_the_service_is_enabled_and_restarted_and_the_timer_is_left(self):
        """An installation enables and starts the service, an upgrade restarts it, and a removal
        stops it. A copy each night is what an administrator enables, and then begins again."""
        self.command("bin/systemctl", f"exec test -e {self.folder}/timer")
        begun = ["enable popbox.service", "start popbox.service"]
        wants(self.calls("postinst", "configure", ""), begun)
        again = ["enable popbox.service", "restart popbox.service"]
        wants(self.calls("postinst", "configure", "0.1.0-1"), again)
        write(f"{self.folder}/timer", "")
        timer = "start popbox-backup.timer"
        wants(self.calls("postinst", "configure", "0.1.0-1"), [*again, timer])
        wants(self.calls("prerm", "upgrade"), [])
        wants(self.calls("prerm", "remove"), ["stop popbox-backup.timer popbox.service"])
