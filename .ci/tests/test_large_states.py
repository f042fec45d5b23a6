"""Large states whose records are known by hand, about the sizes at which a row of bits takes another machine word."""
import random

from program import ProgramTest, bits

SIZES = (63, 64, 65, 130)


def ghz(qubits):
    """A circuit whose state has all qubits 0 or all 1: H at the first, and CX from there to each other."""
    return "H 0\nCX" + "".join(f" 0 {q}" for q in range(1, qubits)) + "\n"


def drawn_coins(qubits, count):
    generator = random.Random(qubits)
    return [generator.random() < 0.5 for _ in range(count)]


class LargeStates(ProgramTest):
    def check_records(self, circuit, coins, records):
        self.check(["run", "--coins", bits(coins)], circuit, f"{bits(records)}\n\n")

    def check_ghz(self, letter, outcome_of):
        """The qubits measured one by one. An outcome is that of the qubit's number and the outcomes before it."""
        for qubits in SIZES:
            with self.subTest(qubits=qubits):
                coins = drawn_coins(qubits, qubits)
                records = []
                for qubit in range(qubits):
                    records.append(outcome_of(qubits, qubit, sum(records) % 2 == 1, coins))
                measured = f"M{letter} " + " ".join(str(q) for q in range(qubits))
                self.check_records(ghz(qubits) + measured, coins, records)

    def test_each_of_z_is_as_the_first(self):
        self.check_ghz("Z", lambda qubits, qubit, odd, coins: coins[0])

    def test_all_but_the_last_of_x_are_random(self):
        """An even number of all are 1."""
        self.check_ghz("X", lambda qubits, qubit, odd, coins: odd if qubit == qubits - 1 else coins[qubit])

    def test_all_but_the_last_of_y_are_random(self):
        """And that too where the number of qubits is odd. Of 4k an even number are 1, and of 4k + 2 an odd number."""
        def outcome(qubits, qubit, odd, coins):
            is_decided = qubit == qubits - 1 and qubits % 2 == 0
            return odd != (qubits % 4 == 2) if is_decided else coins[qubit]

        self.check_ghz("Y", outcome)

    def check_product(self, letters, outcome_of):
        """A product of these letters in turn, measured three times, with one outcome; the second is inverted."""
        for qubits in SIZES:
            with self.subTest(qubits=qubits):
                coins = drawn_coins(qubits, 3)
                product = "*".join(f"{letters[q % len(letters)]}{q}" for q in range(qubits))
                outcome = outcome_of(qubits, coins[0])
                circuit = f"{ghz(qubits)}MPP {product} !{product} {product}"
                self.check_records(circuit, coins, [outcome, not outcome, outcome])

    def test_a_product_of_x_is_decided(self):
        """The state has it."""
        self.check_product("X", lambda qubits, coin: False)

    def test_a_product_of_y_is_decided_by_the_number_of_qubits(self):
        """The state has it at 4k qubits, minus it at 4k + 2, and neither where their number is odd."""
        self.check_product("Y", lambda qubits, coin: coin if qubits % 2 else qubits % 4 == 2)

    def test_a_product_of_all_letters_is_random(self):
        """The state has neither it nor minus it."""
        self.check_product("XYZ", lambda qubits, coin: coin)

    def test_a_state_arrives_that_is_sent_along_a_chain(self):
        """It is sent two qubits further each time, with feedback of both outcomes, which are random."""
        for qubits in SIZES:
            hops = (qubits - 1) // 2
            for letter in "XYZ":
                for outcome in False, True:
                    with self.subTest(qubits=qubits, letter=letter, outcome=outcome):
                        circuit = f"R{letter} 0\n" + ("Z 0\n" if letter == "X" else "X 0\n") * outcome
                        for q in range(0, 2 * hops, 2):
                            circuit += f"H {q + 1}\nCX {q + 1} {q + 2} {q} {q + 1}\nH {q}\nM {q} {q + 1}\n"
                            circuit += f"CZ rec[-2] {q + 2}\nCX rec[-1] {q + 2}\n"
                        circuit += f"M{letter} {2 * hops}\n"
                        # The first coin is that of the reset.
                        coins = drawn_coins(qubits, 2 * hops + 2)
                        self.check_records(circuit, coins, [*coins[1:-1], outcome])
