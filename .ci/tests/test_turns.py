"""Analyses of blocks whose turns repeat, and of some whose turns seem to: with feedback, and with detectors that are like all later
ones. The error models are found by following each fault forward, for which a turn is like any other."""
from frame_models import write_model
from program import ProgramTest

# So many that half of the steps are before the last 512, where turns are looked at first.
TURNS = 400

# A turn that moves the state of qubit 0 to qubit 2 by a Bell pair, corrects it by the records, and moves it back.
TELEPORT = "H 1\nCX 1 2\nX_ERROR(0.001) 0 1 2\nCX 0 1\nH 0\nM(0.002) 0 1\nCX rec[-1] 2\nCZ rec[-2] 2\nSWAP 0 2\nR 1 2\n"

# A turn that measures the parity of qubits 0 and 1, and makes its qubit 0 by the record.
PARITY = "X_ERROR(0.01) 0\nZ_ERROR(0.04) 1\nCX 0 2 1 2\nM(0.02) 2\nCX rec[-1] 2\n"

# What stands before the block, a turn, and what stands behind it.
BLOCKS = {
    "teleported": ("R 0 1 2\n", TELEPORT, "M(0.03) 0\nOBSERVABLE_INCLUDE(0) rec[-1]\n"),
    "teleported, and a qubit that is measured alike each turn": (
        "R 0 1 2\nRX 3\n", TELEPORT + "MX 3\nDETECTOR rec[-1]\n", "M 0\nOBSERVABLE_INCLUDE(0) rec[-1]\n"),
    "two such qubits, and coordinates": (
        "R 0 1 2\nRX 3 4\n", TELEPORT + "MX 3 4\nDETECTOR(1) rec[-1]\nDETECTOR(2) rec[-2]\nSHIFT_COORDS(0, 1)\n",
        "M 0\nOBSERVABLE_INCLUDE(0) rec[-1]\nMX 3\nDETECTOR rec[-1]\n"),
    "such a qubit without feedback": (
        "R 0\nRX 3\n", "X_ERROR(0.1) 0\nMR(0.2) 0\nDETECTOR rec[-1]\nMX 3\nDETECTOR rec[-1]\n", "MX 3\nOBSERVABLE_INCLUDE(2) rec[-1]\n"),
    "such a qubit, which a fault flips from its turn on": (
        "RX 3\n", "X_ERROR(0.1) 0\nMR 0\nZ_ERROR(0.2) 3\nMX(0.3) 3\nDETECTOR rec[-1]\n", "MX 3\nOBSERVABLE_INCLUDE(1) rec[-1]\n"),
    "such a qubit, which a fault flips before the block": (
        "RX 3\nR 0\nZ_ERROR(0.2) 3\n", "X_ERROR(0.1) 0\nMR 0\nDETECTOR rec[-1]\nMX(0.3) 3\nDETECTOR rec[-1]\n", "MX 3\nOBSERVABLE_INCLUDE(1) rec[-1]\n"),
    "such qubits that a gate exchanges": (
        "RX 3 4\n", "X_ERROR(0.1) 0\nMR 0\nDETECTOR rec[-1]\nMX 3\nDETECTOR rec[-1]\nMX 3 4\nDETECTOR rec[-1] rec[-2]\nSWAP 3 4\n", "MX 4\nDETECTOR rec[-1]\n"),
    "parities": ("R 0 1 2\n", PARITY + "DETECTOR rec[-1]\n", "M(0.1) 0 1\nOBSERVABLE_INCLUDE(0) rec[-1]\n"),
    "parities, each with the one before it": (
        "R 0 1 2\nM 2\n", PARITY + "DETECTOR rec[-1] rec[-2]\n", "M 0 1\nDETECTOR rec[-1] rec[-2] rec[-3]\nOBSERVABLE_INCLUDE(0) rec[-1]\n"),
    "feedback by the turn before": (
        "R 0 1 2\nM 2\n", "CX rec[-1] 2\nX_ERROR(0.01) 0\nCX 0 2\nM(0.02) 2\nDETECTOR rec[-1]\n", "M(0.1) 0\nOBSERVABLE_INCLUDE(0) rec[-1]\n"),
    "feedback by a record before the block": (
        "R 0 1 2\nX_ERROR(0.3) 2\nM 2\n" + "M 0\n" * 3, f"X_ERROR(0.01) 1\nCX rec[-4] 1\nM(0.02) 1\nCX rec[-1] 1\nDETECTOR rec[-1]\n", ""),
    "feedback behind the block by its last turn": (
        "R 0 1\n", "X_ERROR(0.01) 0\nMR(0.02) 0\nDETECTOR rec[-1]\n", "CX rec[-1] 1 rec[-2] 1\nM 1\nDETECTOR rec[-1]\n"),
    "two blocks, and steps between": (
        "R 0 1 2\nRX 3\n", TELEPORT + "MX 3\nDETECTOR rec[-1]\n",
        "X_ERROR(0.05) 0\nREPEAT 40 {\n" + TELEPORT + "MX 3\nDETECTOR rec[-1] rec[-4]\n}\nM 0\nOBSERVABLE_INCLUDE(0) rec[-1]\n"),
    "a block in each turn": (
        "R 0 1 2\n", "REPEAT 3 {\nX_ERROR(0.1) 0\nCX 0 2\nM 2\nCX rec[-1] 2\nDETECTOR rec[-1]\n}\nR 0\n", "M 0\nOBSERVABLE_INCLUDE(0) rec[-1]\n"),
}


def in_a_block(before, turn, behind, turns=TURNS):
    return f"{before}REPEAT {turns} {{\n{turn}}}\n{behind}"


class RepeatedTurns(ProgramTest):
    def test_models(self):
        for name, block in BLOCKS.items():
            circuit = in_a_block(*block)
            with self.subTest(name):
                self.check(["analyze"], circuit, write_model(circuit))

    def test_more_text_than_is_held(self):
        """Faults that flip 1,000 observables each, more text than is held whole: of turns that repeat, and of a few long ones, written in parts."""
        before, turn, _ = BLOCKS["teleported"]
        behind = "M 0\n" + "".join(f"OBSERVABLE_INCLUDE({k}) rec[-1]\n" for k in range(1000))
        for name, circuit in (("repeat", in_a_block(before, turn, behind, 600)), ("few", in_a_block(before, turn * 120, behind, 5))):
            with self.subTest(name):
                self.check(["analyze"], circuit, write_model(circuit))

    def test_detections_alone(self):
        """Detections without faults are 0 where no target is random, which is found by going back over the turns."""
        for name, block in BLOCKS.items():
            circuit = in_a_block(*block)
            quiet = "".join(line for line in circuit.splitlines(True) if "_ERROR" not in line)
            for chance in "0.001", "0.002", "0.01", "0.02", "0.03", "0.1", "0.2", "0.3":
                quiet = quiet.replace(f"({chance})", "")
            targets = sum(line.startswith(("detector", "logical")) for line in write_model(circuit).splitlines())
            with self.subTest(name):
                self.check(["detect", "--shots", "3"], quiet, ("0" * targets + "\n") * 3)

    def test_a_random_target(self):
        """The qubit that is measured alike each turn isn't prepared: its first outcome is random, and the first detector with it."""
        before, turn, behind = BLOCKS["teleported, and a qubit that is measured alike each turn"]
        circuit = in_a_block(before.replace("RX 3", "R 3"), turn, behind)
        # The records of that qubit are all alike: the last of the five coins of each turn.
        coins = "0" * 4 + "00001" * TURNS + "0"
        self.check(["analyze"], circuit, f"random D0\n{'0' * len(coins)}\n{coins}\n", 3)
