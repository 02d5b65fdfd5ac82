//! The independent engine: check, children, evaluate, mark, survey, move, run,
//! export and the program, written straight from document 01 and from requests
//! F-1, F-3, F-4 and F-5 of document 02, which are named where they are quoted.
//! (The place of an empty stretch of children, which they leave open, is the C
//! header's.)
//!
//! It is slow and plain on purpose. Every offset, count and length is a whole
//! number (u64) that cannot wrap, and every numbered test is a function of its
//! own that runs over all it concerns before the next one is asked.

/// "Kinds: 0 input, 1 NOT, 2 AND, 3 OR, 4 XOR." F-3, of two-out-of-three voters:
/// "Kind 5 has three children".
pub const INPUT: u8 = 0;
pub const NOT: u8 = 1;
pub const AND: u8 = 2;
pub const OR: u8 = 3;
pub const XOR: u8 = 4;
pub const VOTER: u8 = 5;

/// "kind (0 greedy, 1 down, 2 up)"
pub const GREEDY: u8 = 0;
pub const DOWN: u8 = 1;
pub const UP: u8 = 2;

/// "**Check** returns counts of gates, inputs, children and codes."
#[derive(Debug, Clone, Copy, PartialEq, Eq)]
pub struct Counts {
    pub gates: u64,
    pub inputs: u64,
    pub children: u64,
    pub codes: u64,
}

/// "The contents are six u16: offset and count of gates, offset and count of
/// children, offset and count of codes."
struct Contents {
    gates_at: u64,
    gates: u64,
    children_at: u64,
    children: u64,
    codes_at: u64,
    codes: u64,
}

/// "Gate record, 4 bytes: kind, fan-in, first child position (u16)."
struct GateRecord {
    kind: u8,
    fan_in: u64,
    first: u64,
}

/// "Code record, 4 bytes: gate (u16), value 0 or 1, and a zero byte."
struct CodeRecord {
    gate: u64,
    value: u8,
    zero: u8,
}

/// "All numbers are unsigned, little-endian [...]; u16 is two bytes."
fn u16_at(bytes: &[u8], at: u64) -> u64 {
    let low = bytes[at as usize] as u64;
    let high = bytes[at as usize + 1] as u64;
    low + 256 * high
}

/// "A map is a lent byte string with its table of contents first."
/// Only asked for maps of at least 12 bytes.
fn contents(map: &[u8]) -> Contents {
    Contents {
        gates_at: u16_at(map, 0),
        gates: u16_at(map, 2),
        children_at: u16_at(map, 4),
        children: u16_at(map, 6),
        codes_at: u16_at(map, 8),
        codes: u16_at(map, 10),
    }
}

/// The gate records in order. Only asked once tests 1 to 3 are passed.
fn gate_records(map: &[u8]) -> Vec<GateRecord> {
    let c = contents(map);
    let mut list = Vec::new();
    for g in 0..c.gates {
        let at = c.gates_at + 4 * g;
        list.push(GateRecord {
            kind: map[at as usize],
            fan_in: map[at as usize + 1] as u64,
            first: u16_at(map, at + 2),
        });
    }
    list
}

/// "Child: u16, the number of a gate, counted from 0." The children of all
/// gates in order. Only asked once tests 1 to 3 are passed.
fn child_records(map: &[u8]) -> Vec<u64> {
    let c = contents(map);
    let mut list = Vec::new();
    for p in 0..c.children {
        list.push(u16_at(map, c.children_at + 2 * p));
    }
    list
}

/// The code records in order. Only asked once tests 1 to 3 are passed.
fn code_records(map: &[u8]) -> Vec<CodeRecord> {
    let c = contents(map);
    let mut list = Vec::new();
    for k in 0..c.codes {
        let at = c.codes_at + 4 * k;
        list.push(CodeRecord {
            gate: u16_at(map, at),
            value: map[at as usize + 2],
            zero: map[at as usize + 3],
        });
    }
    list
}

/// "1. The map is shorter than 12 bytes."
fn fails_1(map: &[u8]) -> bool {
    map.len() < 12
}

/// "2. It has 0 gates or more than 1,024."
fn fails_2(map: &[u8]) -> bool {
    let c = contents(map);
    c.gates == 0 || c.gates > 1024
}

/// "3. An offset or the length isn't what the counts give." with "the offsets
/// are 12, 12 + 4 × gates, and that plus 2 × children; the length is the last
/// offset plus 4 × codes."
fn fails_3(map: &[u8]) -> bool {
    let c = contents(map);
    let first = 12;
    let second = 12 + 4 * c.gates;
    let third = second + 2 * c.children;
    let length = third + 4 * c.codes;
    c.gates_at != first
        || c.children_at != second
        || c.codes_at != third
        || map.len() as u64 != length
}

/// "Fan-in: 0 for an input, 1 for NOT, 2 for XOR, 2 to 8 for AND and OR." F-3:
/// "kind 5, with fan-in 3 only."
fn fan_in_allowed(kind: u8, fan_in: u64) -> bool {
    match kind {
        INPUT => fan_in == 0,
        NOT => fan_in == 1,
        XOR => fan_in == 2,
        AND | OR => 2 <= fan_in && fan_in <= 8,
        VOTER => fan_in == 3,
        _ => false,
    }
}

/// "4. A kind is above 4 or a fan-in isn't allowed for its kind." F-3: "Number 4
/// now allows kind 5", so that kinds above 5 are left to fail.
fn fails_4(map: &[u8]) -> bool {
    for gate in gate_records(map) {
        if gate.kind > 5 {
            return true;
        }
        if !fan_in_allowed(gate.kind, gate.fan_in) {
            return true;
        }
    }
    false
}

/// "5. A first child position or the child count is wrong." with "The first
/// child position is the sum of all earlier fan-ins, for inputs too; the total
/// of all fan-ins is the child count."
fn fails_5(map: &[u8]) -> bool {
    let mut sum = 0;
    for gate in gate_records(map) {
        if gate.first != sum {
            return true;
        }
        sum += gate.fan_in;
    }
    contents(map).children != sum
}

/// "6. A child isn't below its gate or doesn't ascend." with "It is below its
/// parent's number, and a gate's children strictly ascend."
/// Only asked once test 5 is passed, so every gate's stretch exists.
fn fails_6(map: &[u8]) -> bool {
    let children = child_records(map);
    for (number, gate) in gate_records(map).iter().enumerate() {
        let mut before: Option<u64> = None;
        for place in gate.first..gate.first + gate.fan_in {
            let child = children[place as usize];
            if child >= number as u64 {
                return true;
            }
            if let Some(earlier) = before {
                if child <= earlier {
                    return true;
                }
            }
            before = Some(child);
        }
    }
    false
}

/// "7. A code's gate is past the last, doesn't ascend, or its value or zero
/// byte is wrong." with "Codes strictly ascend by gate."
fn fails_7(map: &[u8]) -> bool {
    let gates = contents(map).gates;
    let mut before: Option<u64> = None;
    for code in code_records(map) {
        if code.gate >= gates {
            return true;
        }
        if let Some(earlier) = before {
            if code.gate <= earlier {
                return true;
            }
        }
        if code.value > 1 {
            return true;
        }
        if code.zero != 0 {
            return true;
        }
        before = Some(code.gate);
    }
    false
}

/// "**Check** returns counts of gates, inputs, children and codes." and "Each
/// test runs over all it concerns before the next. A call declines on these
/// conditions only, with the first that holds". Test 8 is gone, by F-1: "a
/// coded gate may now be a child" and "Number 8 is no longer given."
pub fn check(map: &[u8]) -> Result<Counts, u8> {
    if fails_1(map) {
        return Err(1);
    }
    if fails_2(map) {
        return Err(2);
    }
    if fails_3(map) {
        return Err(3);
    }
    if fails_4(map) {
        return Err(4);
    }
    if fails_5(map) {
        return Err(5);
    }
    if fails_6(map) {
        return Err(6);
    }
    if fails_7(map) {
        return Err(7);
    }
    let c = contents(map);
    let mut inputs = 0;
    for gate in gate_records(map) {
        if gate.kind == INPUT {
            inputs += 1;
        }
    }
    Ok(Counts {
        gates: c.gates,
        inputs,
        children: c.children,
        codes: c.codes,
    })
}

/// "**Children** hands back the stretch of the lent map that holds a gate's
/// children, no copy; it is empty for an input, a gate number past the end or
/// a map that Check declines, and Children gives no number." An empty stretch
/// lies, as the header says, where an input's children would stand, and else at
/// the map's start.
pub fn children(map: &[u8], gate: usize) -> &[u8] {
    if check(map).is_err() {
        return &map[..0];
    }
    let c = contents(map);
    if gate as u64 >= c.gates {
        return &map[..0];
    }
    let record = &gate_records(map)[gate];
    let from = c.children_at + 2 * record.first;
    let to = from + 2 * record.fan_in;
    &map[from as usize..to as usize]
}

/// A gate of an accepted map: its kind and the numbers of its children.
struct Gate {
    kind: u8,
    children: Vec<usize>,
}

/// An accepted map, read once: its gates, and its codes as gate and value.
struct Circuit {
    gates: Vec<Gate>,
    codes: Vec<(usize, u8)>,
}

/// Only asked for maps that Check accepts.
fn circuit_of(map: &[u8]) -> Circuit {
    let all = child_records(map);
    let mut gates = Vec::new();
    for record in gate_records(map) {
        let mut children = Vec::new();
        for place in record.first..record.first + record.fan_in {
            children.push(all[place as usize] as usize);
        }
        gates.push(Gate { kind: record.kind, children });
    }
    let mut codes = Vec::new();
    for code in code_records(map) {
        codes.push((code.gate as usize, code.value));
    }
    Circuit { gates, codes }
}

/// "NOT, AND, OR and XOR mean what 001 says." Read here in their usual sense:
/// NOT is 1 iff its child is 0, AND iff all children are 1, OR iff some child
/// is 1, XOR iff its two children differ. F-3: kind 5 "is 1 when at least two are
/// 1." The value that the children give a gate that isn't an input.
fn given(gate: &Gate, values: &[u8]) -> u8 {
    let mut children = gate.children.iter().map(|child| values[*child]);
    let yes = match gate.kind {
        NOT => children.next() == Some(0),
        AND => children.all(|value| value == 1),
        OR => children.any(|value| value == 1),
        XOR => children.next() != children.next(),
        VOTER => children.filter(|value| *value == 1).count() >= 2,
        _ => panic!("an input's children give nothing"),
    };
    yes as u8
}

/// "10. It has a byte above 1."
fn fails_10(bytes: &[u8]) -> bool {
    bytes.iter().any(|b| *b > 1)
}

/// "A row is one byte 0 or 1 for each input, by gate number." and "NOT, AND, OR
/// and XOR mean what 001 says." The value of every gate.
fn values_for(circuit: &Circuit, row: &[u8]) -> Vec<u8> {
    let mut values = Vec::new();
    let mut inputs_seen = 0;
    for gate in &circuit.gates {
        if gate.kind == INPUT {
            values.push(row[inputs_seen]);
            inputs_seen += 1;
        } else {
            values.push(given(gate, &values));
        }
    }
    values
}

/// "**Evaluate** takes a row and writes the value of every gate."; "9. The row
/// or configuration has the wrong length.", "10. It has a byte above 1.", "14.
/// Output, work or answer memory is shorter than the gate count."; a declined
/// call "leaves all lent memory untouched", and of longer memory "the surplus
/// is never touched."
pub fn evaluate(map: &[u8], row: &[u8], output: &mut [u8]) -> Result<(), u8> {
    let counts = check(map)?;
    if row.len() as u64 != counts.inputs {
        return Err(9);
    }
    if fails_10(row) {
        return Err(10);
    }
    if (output.len() as u64) < counts.gates {
        return Err(14);
    }
    for (place, value) in values_for(&circuit_of(map), row).iter().enumerate() {
        output[place] = *value;
    }
    Ok(())
}

/// "**Mark** takes a configuration and answers yes if and only if every gate
/// that isn't an input has the value its children give and every coded gate has
/// its code." with "A configuration is one byte 0 or 1 for each gate."; "9. The
/// row or configuration has the wrong length.", "10. It has a byte above 1."
/// Number 11 is "For Survey, Move and Run" and number 14 is about memory that
/// Mark isn't lent, so neither is asked here.
pub fn mark(map: &[u8], configuration: &[u8]) -> Result<bool, u8> {
    let counts = check(map)?;
    if configuration.len() as u64 != counts.gates {
        return Err(9);
    }
    if fails_10(configuration) {
        return Err(10);
    }
    let circuit = circuit_of(map);
    for (number, gate) in circuit.gates.iter().enumerate() {
        if gate.kind != INPUT && configuration[number] != given(gate, configuration) {
            return Ok(false);
        }
    }
    for (gate, value) in circuit.codes {
        if configuration[gate] != value {
            return Ok(false);
        }
    }
    Ok(true)
}

/// F-4: "variable number = gate number + 1".
fn variable(gate: usize) -> i64 {
    gate as i64 + 1
}

/// A clause: its literals in the order in which they are written. A literal is
/// a variable, plain or negated, and negation is a minus.
type Clause = Vec<i64>;

/// F-4: "A clause names the gate first, then children ascending".
fn clause(gate: i64, children: &[i64]) -> Clause {
    [&[gate], children].concat()
}

/// The same literals with the other signs.
fn negated(literals: &[i64]) -> Vec<i64> {
    literals.iter().map(|literal| -literal).collect()
}

/// F-3's pairs of a voter's children: "first-second, first-third, second-third".
fn pairs_of(children: &[i64]) -> Vec<Vec<i64>> {
    let (first, second, third) = (children[0], children[1], children[2]);
    vec![vec![first, second], vec![first, third], vec![second, third]]
}

/// F-4: "each gate's standard Tseitin clauses", where "those negating the gate
/// come first, each sign by child or F-3's pairs, XOR's with the first child plain
/// before the other." and "For a voter they are the six of two literals of
/// children and one of the gate." An input has no children that give its value,
/// and so no clause.
fn clauses_of(number: usize, gate: &Gate) -> Vec<Clause> {
    let g = variable(number);
    let all: Vec<i64> = gate.children.iter().map(|child| variable(*child)).collect();
    let mut list = Vec::new();
    match gate.kind {
        INPUT => {}
        NOT => {
            list.push(clause(-g, &[-all[0]]));
            list.push(clause(g, &[all[0]]));
        }
        AND => {
            for child in &all {
                list.push(clause(-g, &[*child]));
            }
            list.push(clause(g, &negated(&all)));
        }
        OR => {
            list.push(clause(-g, &all));
            for child in &all {
                list.push(clause(g, &[-child]));
            }
        }
        XOR => {
            let (a, b) = (all[0], all[1]);
            list.push(clause(-g, &[a, b]));
            list.push(clause(-g, &[-a, -b]));
            list.push(clause(g, &[a, -b]));
            list.push(clause(g, &[-a, b]));
        }
        VOTER => {
            for pair in pairs_of(&all) {
                list.push(clause(-g, &pair));
            }
            for pair in pairs_of(&all) {
                list.push(clause(g, &negated(&pair)));
            }
        }
        _ => panic!("test 4 declines such a kind"),
    }
    list
}

/// F-4: "each gate's standard Tseitin clauses in gate order, then a unit clause
/// per code". Codes ascend by gate.
fn all_clauses(circuit: &Circuit) -> Vec<Clause> {
    let mut list = Vec::new();
    for (number, gate) in circuit.gates.iter().enumerate() {
        list.extend(clauses_of(number, gate));
    }
    for (gate, value) in &circuit.codes {
        let unit = if *value == 1 { variable(*gate) } else { -variable(*gate) };
        list.push(vec![unit]);
    }
    list
}

/// F-4: "a map as DIMACS CNF", "with the `p cnf` line before them. Items stand one
/// blank apart, each clause is one line with 0 last, a line feed ends each line,
/// and no other line is written." The `p cnf` line has the count of variables,
/// which is that of gates, and the count of clauses. The text that Export writes
/// where it is lent enough memory, or the number of the map's test that fails.
pub fn text(map: &[u8]) -> Result<String, u8> {
    check(map)?;
    let circuit = circuit_of(map);
    let clauses = all_clauses(&circuit);
    let mut text = format!("p cnf {} {}\n", circuit.gates.len(), clauses.len());
    for clause in clauses {
        for literal in clause {
            text.push_str(&format!("{literal} "));
        }
        text.push_str("0\n");
    }
    Ok(text)
}

/// F-4: "The call returns the text's length." and "A text memory shorter than the
/// text gives 16 in the place of test 14": behind the map's tests, with no other
/// between. A declined call "leaves all lent memory untouched", and of longer
/// memory "the surplus is never touched."
pub fn export(map: &[u8], memory: &mut [u8]) -> Result<u64, u8> {
    let text = text(map)?;
    if memory.len() < text.len() {
        return Err(16);
    }
    for (place, byte) in text.bytes().enumerate() {
        memory[place] = byte;
    }
    Ok(text.len() as u64)
}

/// "11. For Survey, Move and Run: a coded gate's value isn't its code."
/// Only asked once tests 9 and 10 are passed.
fn fails_11(map: &[u8], configuration: &[u8]) -> bool {
    for code in code_records(map) {
        if configuration[code.gate as usize] != code.value {
            return true;
        }
    }
    false
}

/// The tests up to 11 in order, which Survey, Move and Run share.
fn tests_to_11(map: &[u8], configuration: &[u8]) -> Result<Counts, u8> {
    let counts = check(map)?;
    if configuration.len() as u64 != counts.gates {
        return Err(9);
    }
    if fails_10(configuration) {
        return Err(10);
    }
    if fails_11(map, configuration) {
        return Err(11);
    }
    Ok(counts)
}

/// "A gate is justified if it is an input or its children give its value."
fn justified(circuit: &Circuit, configuration: &[u8], number: usize) -> bool {
    let gate = &circuit.gates[number];
    gate.kind == INPUT || given(gate, configuration) == configuration[number]
}

/// Those of a gate's children that are at `value`.
fn children_at(value: u8, gate: &Gate, configuration: &[u8]) -> Vec<usize> {
    let mut list = Vec::new();
    for child in &gate.children {
        if configuration[*child] == value {
            list.push(*child);
        }
    }
    list
}

/// "The parts of a subset-minimal justification that agree with the
/// configuration are: AND at 1 and OR at 0, all children; AND at 0, each child
/// at 0; OR at 1, each child at 1; NOT, its child; XOR, both." F-3: "The children
/// relevant to a justified voter are all those with its value." An input has
/// none. Only asked for justified gates.
fn parts(circuit: &Circuit, configuration: &[u8], number: usize) -> Vec<usize> {
    let gate = &circuit.gates[number];
    match (gate.kind, configuration[number]) {
        (AND, 1) | (OR, 0) => gate.children.clone(),
        (AND, 0) => children_at(0, gate, configuration),
        (OR, 1) => children_at(1, gate, configuration),
        (NOT, _) | (XOR, _) => gate.children.clone(),
        (VOTER, value) => children_at(value, gate, configuration),
        _ => Vec::new(),
    }
}

/// "The cone is the smallest set that has every coded gate and, for each
/// justified gate in it, these children." One yes or no for each gate. Gates
/// are taken in only where the set must have them, until nothing changes; each
/// round begins at the last gate, which is quicker and changes nothing else.
fn cone_of(circuit: &Circuit, configuration: &[u8]) -> Vec<bool> {
    let mut cone = vec![false; circuit.gates.len()];
    for (gate, _) in &circuit.codes {
        cone[*gate] = true;
    }
    let mut changed = true;
    while changed {
        changed = false;
        for number in (0..cone.len()).rev() {
            if !cone[number] || !justified(circuit, configuration, number) {
                continue;
            }
            for child in parts(circuit, configuration, number) {
                if !cone[child] {
                    cone[child] = true;
                    changed = true;
                }
            }
        }
    }
    cone
}

/// "The front is the cone's unjustified gates."
fn front_of(circuit: &Circuit, configuration: &[u8], cone: &[bool]) -> Vec<bool> {
    let mut front = Vec::new();
    for number in 0..cone.len() {
        front.push(cone[number] && !justified(circuit, configuration, number));
    }
    front
}

/// "Interesting gates are the front and all descendants of its gates (their
/// children, those gates' children and so on)". NOT gates are interesting like
/// others: F-5 says that "they still get the mark 4."
fn interest_of(circuit: &Circuit, front: &[bool]) -> Vec<bool> {
    let mut interest = front.to_vec();
    let mut waiting = listed(front);
    while let Some(number) = waiting.pop() {
        for child in &circuit.gates[number].children {
            if !interest[*child] {
                interest[*child] = true;
                waiting.push(*child);
            }
        }
    }
    interest
}

/// How many gates a set has.
fn size_of(set: &[bool]) -> u64 {
    set.iter().filter(|member| **member).count() as u64
}

/// F-5: "An interest set's size leaves NOT gates out from now on". The front's size
/// doesn't.
fn interest_size_of(circuit: &Circuit, interest: &[bool]) -> u64 {
    let mut size = 0;
    for number in listed(interest) {
        if circuit.gates[number].kind != NOT {
            size += 1;
        }
    }
    size
}

/// What Survey does once it is accepted: the bytes written, the sizes returned.
fn write_survey(circuit: &Circuit, configuration: &[u8], output: &mut [u8]) -> (u64, u64) {
    let cone = cone_of(circuit, configuration);
    let front = front_of(circuit, configuration, &cone);
    let interest = interest_of(circuit, &front);
    for gate in 0..cone.len() {
        output[gate] = cone[gate] as u8 + 2 * front[gate] as u8 + 4 * interest[gate] as u8;
    }
    (size_of(&front), interest_size_of(circuit, &interest))
}

/// "**Survey** writes one byte per gate: 1 if in the cone, plus 2 if in the
/// front, plus 4 if interesting, and returns the sizes of front and interest
/// set." Numbers 1 to 7, 9 to 11 and 14 apply, in that order; a declined call "leaves
/// all lent memory untouched", and of longer memory "the surplus is never
/// touched."
pub fn survey(map: &[u8], configuration: &[u8], output: &mut [u8]) -> Result<(u64, u64), u8> {
    let counts = tests_to_11(map, configuration)?;
    if (output.len() as u64) < counts.gates {
        return Err(14);
    }
    Ok(write_survey(&circuit_of(map), configuration, output))
}

/// "A tape entry is 4 bytes: draw (u16), kind (0 greedy, 1 down, 2 up), option."
struct Entry {
    draw: u64,
    kind: u8,
    option: u8,
}

/// Only asked for 4 bytes.
fn entry_of(bytes: &[u8]) -> Entry {
    Entry { draw: u16_at(bytes, 0), kind: bytes[2], option: bytes[3] }
}

/// "The front is listed by rising gate number".
fn listed(set: &[bool]) -> Vec<usize> {
    (0..set.len()).filter(|number| set[*number]).collect()
}

/// One option for each child in order, turning that child.
fn one_by_one(children: &[usize]) -> Vec<Vec<usize>> {
    children.iter().map(|child| vec![*child]).collect()
}

/// F-3, of a voter: "Its options are the pairs first-second, first-third,
/// second-third, each setting both to the voter's value; so an option may turn
/// one or two children". Of each pair those that aren't at that value: setting
/// turns them, and none else.
fn pairs(gate: &Gate, configuration: &[u8], value: u8) -> Vec<Vec<usize>> {
    let (first, second, third) = (gate.children[0], gate.children[1], gate.children[2]);
    let mut list = Vec::new();
    for pair in [[first, second], [first, third], [second, third]] {
        list.push(pair.into_iter().filter(|child| configuration[*child] != value).collect());
    }
    list
}

/// "Its down options, numbered from 0: AND at 1 or OR at 0, a single option
/// that turns every wrong child; AND at 0 or OR at 1, one per child in order,
/// turning that child; NOT, its child; XOR, first child or second child." A
/// voter's are F-3's pairs. Each is the list of the gates it turns: "A gate belongs
/// to an option only if the option turns it." Only asked for gates of the front.
fn down_options(circuit: &Circuit, configuration: &[u8], drawn: usize) -> Vec<Vec<usize>> {
    let gate = &circuit.gates[drawn];
    match (gate.kind, configuration[drawn]) {
        (AND, 1) => vec![children_at(0, gate, configuration)],
        (OR, 0) => vec![children_at(1, gate, configuration)],
        (AND, 0) | (OR, 1) => one_by_one(&gate.children),
        (NOT, _) | (XOR, _) => one_by_one(&gate.children),
        (VOTER, value) => pairs(gate, configuration, value),
        _ => panic!("an input is never in the front"),
    }
}

/// The configuration with these gates turned.
fn with_turned(configuration: &[u8], gates: &[usize]) -> Vec<u8> {
    let mut after = configuration.to_vec();
    for gate in gates {
        after[*gate] = 1 - after[*gate];
    }
    after
}

/// The size of the interest set, as Survey returns it. Only asked for
/// configurations that Survey accepts.
fn interest_size(circuit: &Circuit, configuration: &[u8]) -> u64 {
    let cone = cone_of(circuit, configuration);
    let front = front_of(circuit, configuration, &cone);
    interest_size_of(circuit, &interest_of(circuit, &front))
}

/// "of the options with the smallest interest set after the move, in rising
/// order". F-5: "Greedy choices compare the new size." Only asked for options
/// that are left: they turn no coded gate, so that Survey accepts what they
/// leave.
fn with_smallest_interest(circuit: &Circuit, configuration: &[u8], options: &[Vec<usize>]) -> Vec<Vec<usize>> {
    let mut sizes = Vec::new();
    for option in options {
        sizes.push(interest_size(circuit, &with_turned(configuration, option)));
    }
    let smallest = *sizes.iter().min().expect("only asked where some option is left");
    let mut list = Vec::new();
    for (option, size) in options.iter().zip(sizes) {
        if size == smallest {
            list.push(option.clone());
        }
    }
    list
}

/// The option at place `number` modulo how many there are.
fn option_at(number: u8, options: &[Vec<usize>]) -> Vec<usize> {
    options[number as usize % options.len()].clone()
}

fn is_coded(circuit: &Circuit, number: usize) -> bool {
    circuit.codes.iter().any(|(gate, _)| *gate == number)
}

/// F-1: "A down option counts only if it turns no coded gate". Those that count,
/// in their order: "numbering and modulo run over those left."
fn options_left(circuit: &Circuit, configuration: &[u8], drawn: usize) -> Vec<Vec<usize>> {
    let mut left = Vec::new();
    for option in down_options(circuit, configuration, drawn) {
        if !option.iter().any(|gate| is_coded(circuit, *gate)) {
            left.push(option);
        }
    }
    left
}

/// The gates that an entry turns once its gate is drawn and some option is left.
/// "Down: option modulo the number of options. Up: turn the drawn gate itself,
/// option byte unread. On a coded gate, up acts as down. Greedy: of the options
/// with the smallest interest set after the move, in rising order, the one at
/// option modulo their number."
fn turned_by(circuit: &Circuit, configuration: &[u8], drawn: usize, entry: &Entry, left: &[Vec<usize>]) -> Vec<usize> {
    match entry.kind {
        GREEDY => option_at(entry.option, &with_smallest_interest(circuit, configuration, left)),
        DOWN => option_at(entry.option, left),
        UP if is_coded(circuit, drawn) => option_at(entry.option, left),
        UP => vec![drawn],
        _ => panic!("test 13 declines such a kind"),
    }
}

/// The gates that an entry turns once its gate is drawn, or None for Stuck. F-1:
/// "If none is left and the drawn gate is uncoded, the gate itself is turned,
/// whatever the kind. If none is left and it is coded, the run or move ends
/// Stuck".
fn turned_or_stuck(circuit: &Circuit, configuration: &[u8], drawn: usize, entry: &Entry) -> Option<Vec<usize>> {
    let left = options_left(circuit, configuration, drawn);
    if !left.is_empty() {
        return Some(turned_by(circuit, configuration, drawn, entry, &left));
    }
    if is_coded(circuit, drawn) {
        return None;
    }
    Some(vec![drawn])
}

/// What came of an entry: the drawn gate, and how many values were turned where
/// it was done.
enum Step {
    Done(u64, u64),
    Stuck(u64),
}

/// Does one entry: "the gate drawn stands at place draw modulo front size,
/// counted from 0." Where it is Stuck, F-1 leaves "that entry undone". Only asked
/// where the front isn't empty.
fn do_entry(circuit: &Circuit, configuration: &mut [u8], entry: &Entry) -> Step {
    let cone = cone_of(circuit, configuration);
    let front = listed(&front_of(circuit, configuration, &cone));
    let drawn = front[(entry.draw % front.len() as u64) as usize];
    match turned_or_stuck(circuit, configuration, drawn, entry) {
        Some(turned) => {
            let after = with_turned(configuration, &turned);
            configuration.copy_from_slice(&after);
            Step::Done(drawn as u64, turned.len() as u64)
        }
        None => Step::Stuck(drawn as u64),
    }
}

/// "**Move** does one entry and returns the drawn gate and how many values it
/// turned (1 to 8). The lent configuration is then the new one, and the first
/// bytes of the work memory, one per gate, are its survey." F-1, where it ends
/// Stuck: "Move then returns the drawn gate and 0 turned", with "the work memory
/// filled as after Spent": with the survey of the configuration, which is as it
/// was. Numbers 1 to 7 and 9 to 15 apply, in that order; a declined call "leaves
/// all lent memory untouched", and of longer memory "the surplus is never
/// touched."
pub fn make_move(
    map: &[u8],
    configuration: &mut [u8],
    entry: &[u8],
    work: &mut [u8],
) -> Result<(u64, u64), u8> {
    let counts = tests_to_11(map, configuration)?;
    if entry.len() != 4 {
        return Err(12);
    }
    let entry = entry_of(entry);
    if entry.kind > 2 {
        return Err(13);
    }
    if (work.len() as u64) < counts.gates {
        return Err(14);
    }
    let circuit = circuit_of(map);
    let cone = cone_of(&circuit, configuration);
    if size_of(&front_of(&circuit, configuration, &cone)) == 0 {
        return Err(15);
    }
    let step = do_entry(&circuit, configuration, &entry);
    write_survey(&circuit, configuration, work);
    match step {
        Step::Done(gate, turned) => Ok((gate, turned)),
        Step::Stuck(gate) => Ok((gate, 0)),
    }
}

/// "a struct holding the ending enum Found, Spent(front), Refused(number)
/// beside two counts." F-1 adds Stuck; only "Spent also carries the front's
/// size."
#[derive(Debug, Clone, Copy, PartialEq, Eq)]
pub enum Ending {
    Found,
    Spent(u64),
    Stuck,
    Refused(u8),
}

/// "A run's answer is one record: its ending, its moves and its flips."
#[derive(Debug, Clone, Copy, PartialEq, Eq)]
pub struct Answer {
    pub ending: Ending,
    pub moves: u64,
    pub flips: u64,
}

/// "12. The tape's length isn't a multiple of 4, is above 65,532".
fn fails_12(tape: &[u8]) -> bool {
    tape.len() % 4 != 0 || tape.len() > 65_532
}

/// "13. An entry, even one never reached, has a kind above 2." Only asked once
/// test 12 is passed.
fn fails_13(tape: &[u8]) -> bool {
    tape.chunks(4).any(|bytes| entry_of(bytes).kind > 2)
}

/// The tests up to 14 in order, as they concern Run.
fn run_tests(map: &[u8], configuration: &[u8], tape: &[u8], work: &[u8], answer: &[u8]) -> Result<(), u8> {
    let counts = tests_to_11(map, configuration)?;
    if fails_12(tape) {
        return Err(12);
    }
    if fails_13(tape) {
        return Err(13);
    }
    if (work.len() as u64) < counts.gates || (answer.len() as u64) < counts.gates {
        return Err(14);
    }
    Ok(())
}

/// "Found writes the answer memory: inputs in the cone keep their values, all
/// other inputs are 0, other gates are evaluated."
fn write_answer(circuit: &Circuit, configuration: &[u8], answer: &mut [u8]) {
    let cone = cone_of(circuit, configuration);
    let mut row = Vec::new();
    for (number, gate) in circuit.gates.iter().enumerate() {
        if gate.kind == INPUT {
            row.push(if cone[number] { configuration[number] } else { 0 });
        }
    }
    for (place, value) in values_for(circuit, &row).iter().enumerate() {
        answer[place] = *value;
    }
}

/// "**Run** repeats: survey; if the front is empty, end Found; if the tape is
/// used up, end Spent; else do the next entry. A tape goes through the engine
/// entry by entry, the place reached moving on by four." with "Spent also
/// carries the front's size. Moves is the number of entries done, flips the sum
/// of values turned." and "After either ending the configuration is the last
/// one and the first bytes of the work memory, one per gate, are its survey."
/// F-1: a run that is Stuck ends "with that entry undone and uncounted, answer
/// memory untouched and the work memory filled as after Spent."
/// A declined call "leaves all lent memory untouched; the other numbers of its
/// answer, as Run's moves and flips, are then 0."
pub fn run(map: &[u8], configuration: &mut [u8], tape: &[u8], work: &mut [u8], answer: &mut [u8]) -> Answer {
    if let Err(number) = run_tests(map, configuration, tape, work, answer) {
        return Answer { ending: Ending::Refused(number), moves: 0, flips: 0 };
    }
    let circuit = circuit_of(map);
    let (mut moves, mut flips, mut place) = (0, 0, 0);
    loop {
        let (front, _) = write_survey(&circuit, configuration, work);
        if front == 0 {
            write_answer(&circuit, configuration, answer);
            return Answer { ending: Ending::Found, moves, flips };
        }
        if place == tape.len() {
            return Answer { ending: Ending::Spent(front), moves, flips };
        }
        match do_entry(&circuit, configuration, &entry_of(&tape[place..place + 4])) {
            Step::Done(_, turned) => {
                moves += 1;
                flips += turned;
                place += 4;
            }
            Step::Stuck(_) => return Answer { ending: Ending::Stuck, moves, flips },
        }
    }
}

/// "The program reads three u16 lengths (map, configuration, tape) and the three
/// bodies from standard input". None "if the input passes 65,536 bytes or isn't
/// exactly the 6 bytes and the three lengths together."
fn bodies_of(input: &[u8]) -> Option<(&[u8], &[u8], &[u8])> {
    if input.len() > 65_536 || input.len() < 6 {
        return None;
    }
    let configuration_at = 6 + u16_at(input, 0);
    let tape_at = configuration_at + u16_at(input, 2);
    let end = tape_at + u16_at(input, 4);
    if input.len() as u64 != end {
        return None;
    }
    let (configuration_at, tape_at) = (configuration_at as usize, tape_at as usize);
    Some((&input[6..configuration_at], &input[configuration_at..tape_at], &input[tape_at..]))
}

/// "Row is the answer's input values in gate order, one digit each." Only asked
/// for maps that Check accepts.
fn row_digits(map: &[u8], answer: &[u8]) -> String {
    let mut digits = String::new();
    for (number, gate) in gate_records(map).iter().enumerate() {
        if gate.kind == INPUT {
            digits.push(if answer[number] == 1 { '1' } else { '0' });
        }
    }
    digits
}

/// "prints a line: `FOUND moves flips row`, `SPENT moves flips front` or
/// `REFUSED number`", and by F-1 "`STUCK moves flips`". The line without its
/// end. The program lends memories of its own, as long as the largest map needs,
/// so number 14 never comes.
pub fn program(input: &[u8]) -> String {
    let (map, configuration, tape) = match bodies_of(input) {
        Some(bodies) => bodies,
        None => return String::from("REFUSED 0"),
    };
    let mut configuration = configuration.to_vec();
    let (mut work, mut answer) = ([0; 1024], [0; 1024]);
    let Answer { ending, moves, flips } = run(map, &mut configuration, tape, &mut work, &mut answer);
    match ending {
        Ending::Found => format!("FOUND {moves} {flips} {}", row_digits(map, &answer)),
        Ending::Spent(front) => format!("SPENT {moves} {flips} {front}"),
        Ending::Stuck => format!("STUCK {moves} {flips}"),
        Ending::Refused(number) => format!("REFUSED {number}"),
    }
}
