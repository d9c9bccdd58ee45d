"""Units on many machines: GNU parallel over two hosts, which are network namespaces of this test with an sshd each.

The test makes three namespaces, with addresses that are in them alone: one for the caller, and one for each host. Each
host has a home directory of its own. No address of the machine itself is used or changed. The test needs root, and it
ends what it started.
"""
import os
import shutil
import subprocess
import time

from tooling import EXAMPLES, ToolTest, needs, write

CONFIG = """Port 22
ListenAddress {address}
HostKey {folder}/host_key
AuthorizedKeysFile {folder}/user_key.pub
PidFile {folder}/{name}.pid
UsePAM no
StrictModes no
PermitRootLogin yes
PasswordAuthentication no
"""
CLIENT = """Host one two
    User root
    IdentityFile {folder}/user_key
    IdentitiesOnly yes
    UserKnownHostsFile {folder}/known_hosts
    StrictHostKeyChecking accept-new
    LogLevel ERROR
Host one
    HostName 10.77.0.11
Host two
    HostName 10.77.0.12
"""
HOSTS = {"one": "10.77.0.11", "two": "10.77.0.12"}


class Machines(ToolTest):
    """Two hosts."""

    def setUp(self):
        super().setUp()
        needs("ip", "unshare", "sshd", "ssh", "ssh-keygen", "parallel", "rsync")
        if os.geteuid() != 0:
            self.skipTest("network namespaces need root")
        self.environment["PATH"] += ":/usr/sbin:/sbin"
        self.prefix = f"cct{os.getpid() % 100000}"
        self.make_network()
        self.make_keys()
        for name in HOSTS:
            self.start_sshd(name)

    def done(self, *words, **how):
        """Runs a command that has to succeed."""
        status, text, why = self.call(*words, **how)
        self.assertEqual(status, 0, f"{' '.join(words)}: {text}{why}")
        return text

    def space(self, name):
        """Returns the name of a namespace."""
        return f"{self.prefix}-{name}"

    def make_network(self):
        """Makes the namespaces: a bridge in that of the caller, and a pair of devices for each host."""
        for name in ("caller", *HOSTS):
            status, _, why = self.call("ip", "netns", "add", self.space(name))
            if status:
                self.skipTest(f"no network namespace can be made: {why.strip()}")
            self.addCleanup(self.call, "ip", "netns", "delete", self.space(name))
        caller = self.space("caller")
        inside = ("ip", "-n", caller)
        self.done(*inside, "link", "add", "bridge", "type", "bridge")
        self.done(*inside, "address", "add", "10.77.0.1/24", "dev", "bridge")
        self.done(*inside, "link", "set", "bridge", "up")
        self.done(*inside, "link", "set", "lo", "up")
        for name, address in HOSTS.items():
            host = self.space(name)
            self.done(*inside, "link", "add", f"to-{name}", "type", "veth", "peer", "name", "wire", "netns", host)
            self.done(*inside, "link", "set", f"to-{name}", "master", "bridge", "up")
            self.done("ip", "-n", host, "address", "add", f"{address}/24", "dev", "wire")
            self.done("ip", "-n", host, "link", "set", "wire", "up")
            self.done("ip", "-n", host, "link", "set", "lo", "up")

    def make_keys(self):
        """Makes keys of this test, and the configuration of ssh."""
        for name in ("host_key", "user_key"):
            self.done("ssh-keygen", "-q", "-t", "ed25519", "-N", "", "-f", f"{self.folder}/{name}")
        self.file("ssh_config", CLIENT.format(folder=self.folder))

    def start_sshd(self, name):
        """Starts the sshd of a host; it is ended by its own number."""
        path = self.file(f"{name}.conf", CONFIG.format(address=HOSTS[name], folder=self.folder, name=name))
        os.makedirs("/run/sshd", exist_ok=True)
        sshd = shutil.which("sshd", path=self.environment["PATH"])
        start = f"mount -t tmpfs home /root && exec {sshd} -D -e -f {self.folder}/{path}"
        words = ["ip", "netns", "exec", self.space(name), "unshare", "--mount", "sh", "-c", start]
        with open(f"{self.folder}/{name}.log", "wb") as log:
            server = subprocess.Popen(words, stderr=log, stdin=subprocess.DEVNULL)
        self.addCleanup(server.wait)
        self.addCleanup(server.terminate)
        for _ in range(100):
            if os.path.exists(f"{self.folder}/{name}.pid"):
                return
            time.sleep(0.05)
        with open(f"{self.folder}/{name}.log", encoding="utf-8") as log:
            self.skipTest(f"sshd does not start: {log.read().strip()}")

    def on_caller(self, *words, **how):
        """Runs a command in the namespace of the caller."""
        return self.call("ip", "netns", "exec", self.space("caller"), *words, **how)

    def test_units_are_analysed_on_both_hosts(self):
        project = f"{self.folder}/project"
        shutil.copytree(f"{EXAMPLES}/project", project)
        for number in range(6):
            write(f"{project}/src/more{number}.c", f"int main(void) {{ int z = {number} - 3; return 1 / z; }}\n")
        units = sorted(f"src/{it}" for it in os.listdir(f"{project}/src") if it != "table.c")
        ssh = f"ssh -F {self.folder}/ssh_config"
        call = (f"{self.program} gate {{}} include --base baseline.json > {{.}}.report; status=$?; "
                "echo $SSH_CONNECTION > {.}.host; exit $status")
        words = ["parallel", "--ssh", ssh, "--sshlogin", "2/one,2/two", "--workdir", "ccheck-work", "--cleanup",
                 "--basefile", "include", "--basefile", "baseline.json", "--transferfile", "{}",
                 "--return", "{.}.report", "--return", "{.}.host", call]
        status, text, why = self.on_caller(*words, data="\n".join(units).encode(), folder=project,
                                           HOME=self.folder, PARALLEL_HOME=f"{self.folder}/parallel",
                                           RSYNC_RSH=ssh)
        self.assertEqual(status, 1, text + why)
        hosts = set()
        for unit in units:
            with open(f"{project}/{unit[:-2]}.report", encoding="utf-8") as file:
                here = self.ccheck("gate", unit, "include", "--base", "baseline.json", folder=project)[1]
                self.assertEqual(file.read(), here, text + why)
            with open(f"{project}/{unit[:-2]}.host", encoding="utf-8") as file:
                hosts.add(file.read().split()[2])
        self.assertEqual(hosts, set(HOSTS.values()))
