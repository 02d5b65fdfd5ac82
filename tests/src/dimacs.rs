//! Reads DIMACS CNF, and tells whether an assignment satisfies it. It knows nothing of maps.
//!
//! It takes texts of a head line and clauses alone, items one blank apart and a line feed at each line's end, and counts what the head says.

/// A text that was read: how many variables its head says, and the clauses' literals without the 0 at their ends.
#[derive(Debug, Clone, PartialEq, Eq)]
pub struct Cnf {
    pub variables: usize,
    pub clauses: Vec<Vec<i64>>,
}

/// A number as it is written in decimal: no sign but a minus before what isn't 0, and no 0 before another digit.
fn number(item: &str) -> Result<i64, String> {
    let value: i64 = item.parse().map_err(|_| format!("not a number: '{item}'"))?;
    match value.to_string() == item {
        true => Ok(value),
        false => Err(format!("not as numbers are written: '{item}'")),
    }
}

fn count(item: &str) -> Result<usize, String> {
    usize::try_from(number(item)?).map_err(|_| format!("not a count: '{item}'"))
}

fn clause(line: &str, variables: usize) -> Result<Vec<i64>, String> {
    let mut literals: Vec<i64> = line.split(' ').map(number).collect::<Result<_, _>>()?;
    if literals.pop() != Some(0) {
        return Err(format!("no 0 at the end of '{line}'"));
    }
    let named = |literal: &i64| *literal != 0 && literal.unsigned_abs() <= variables as u64;
    match literals.iter().all(named) {
        true => Ok(literals),
        false => Err(format!("a literal of no variable in '{line}'")),
    }
}

pub fn read(bytes: &[u8]) -> Result<Cnf, String> {
    let text = std::str::from_utf8(bytes).map_err(|e| e.to_string())?;
    let whole = text.strip_suffix('\n').ok_or("no line feed at the end")?;
    let mut lines = whole.split('\n');
    let head: Vec<&str> = lines.next().unwrap_or("").split(' ').collect();
    let (variables, clauses) = match head[..] {
        ["p", "cnf", variables, clauses] => (count(variables)?, count(clauses)?),
        _ => return Err(format!("no head: {head:?}")),
    };
    let list: Vec<Vec<i64>> = lines.map(|line| clause(line, variables)).collect::<Result<_, _>>()?;
    match list.len() == clauses {
        true => Ok(Cnf { variables, clauses: list }),
        false => Err(format!("{} clauses, and the head says {clauses}", list.len())),
    }
}

impl Cnf {
    /// Whether the values, the first of them variable 1's, satisfy every clause: in each some literal is true.
    pub fn satisfied(&self, values: &[u8]) -> bool {
        let holds = |literal: &i64| (values[literal.unsigned_abs() as usize - 1] == 1) == (*literal > 0);
        self.clauses.iter().all(|clause| clause.iter().any(holds))
    }
}
