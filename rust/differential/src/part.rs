//! The parts of a run, and a case of any of them.

use crate::case;
use crate::coverage::Coverage;
use crate::generate;
use crate::protector::generate as protector_cases;
use crate::protector::lines;
use crate::protector::raw;
use crate::random::Random;
use crate::registrar_raw;
use crate::run;
use crate::run::Difference;
use crate::shrink::shrink;

#[derive(Debug, Clone, Copy, PartialEq, Eq)]
pub enum Part {
    /// The registrar's lines.
    Registrar,
    /// The registrar's entries, on any words.
    RegistrarRaw,
    /// The protector's lines.
    Protector,
    /// The protector's entries, on any words.
    Raw,
}

/// The parts by the number of a case.
const IN_TURN: [Part; 6] = [
    Part::Registrar,
    Part::Protector,
    Part::Raw,
    Part::Protector,
    Part::RegistrarRaw,
    Part::Protector,
];

impl Part {
    pub fn named(name: &str) -> Option<Self> {
        match name {
            "registrar" => Some(Self::Registrar),
            "protector" => Some(Self::Protector),
            "raw" => Some(Self::Raw),
            "registrar-raw" => Some(Self::RegistrarRaw),
            _ => None,
        }
    }
}

pub enum Case {
    Registrar(Vec<case::Act>),
    Protector(Vec<lines::Act>),
    Raw(Vec<raw::Act>),
    RegistrarRaw(Vec<registrar_raw::Act>),
}

impl Case {
    /// The case of a seed and a number: of one part, or of all in turn.
    pub fn new(seed: u64, number: u64, part: Option<Part>) -> Self {
        let part = part.unwrap_or(IN_TURN[(number % IN_TURN.len() as u64) as usize]);
        let random = &mut Random::new(seed, number);
        match part {
            Part::Registrar => Self::Registrar(generate::case(random)),
            Part::Protector => Self::Protector(protector_cases::case(random)),
            Part::Raw => Self::Raw(raw::case(random)),
            Part::RegistrarRaw => Self::RegistrarRaw(registrar_raw::generate::case(random)),
        }
    }

    /// The first difference.
    pub fn run(&self, coverage: &mut Coverage) -> Option<Difference> {
        match self {
            Self::Registrar(acts) => run::run(acts, coverage),
            Self::Protector(acts) => lines::run(acts, coverage),
            Self::Raw(acts) => raw::run(acts, coverage),
            Self::RegistrarRaw(acts) => registrar_raw::run(acts, coverage),
        }
    }

    /// A shorter case that still differs.
    pub fn shrunk(&self) -> Self {
        let none = Coverage::default;
        match self {
            Self::Registrar(acts) => Self::Registrar(shrink(acts, |acts| {
                run::run(acts, &mut none()).map(|d| d.place)
            })),
            Self::Protector(acts) => Self::Protector(shrink(acts, |acts| {
                lines::run(acts, &mut none()).map(|d| d.place)
            })),
            Self::Raw(acts) => Self::Raw(shrink(acts, |acts| {
                raw::run(acts, &mut none()).map(|d| d.place)
            })),
            Self::RegistrarRaw(acts) => Self::RegistrarRaw(shrink(acts, |acts| {
                registrar_raw::run(acts, &mut none()).map(|d| d.place)
            })),
        }
    }

    /// A difference as it is told: the shortest list found, and what each gives where it differs.
    pub fn report(&self, difference: Difference) -> String {
        let short = self.shrunk();
        let shown = short.run(&mut Coverage::default()).unwrap_or(difference);
        let original = shown.original.unwrap_or("was not asked".to_string());
        format!(
            "The shortest list found{}:\n{}\
             differs at       {}\n\
             the port gives   {}\n\
             the original     {original}\n\
             predicted        {}\n",
            short.readers(),
            short.script(),
            shown.line,
            shown.port,
            shown.predicted,
        )
    }

    /// Its lines, indented.
    pub fn script(&self) -> String {
        let lines = self.lines().into_iter();
        lines.map(|line| format!("    {line}\n")).collect()
    }

    /// Who reads its lines besides people.
    fn readers(&self) -> &'static str {
        match self {
            Self::Raw(_) | Self::RegistrarRaw(_) => "",
            _ => ", which port and oracle read too",
        }
    }

    pub fn lines(&self) -> Vec<String> {
        match self {
            Self::Registrar(acts) => acts.iter().flat_map(case::Act::lines).collect(),
            Self::Protector(acts) => acts.iter().flat_map(lines::Act::lines).collect(),
            Self::Raw(acts) => acts.iter().map(raw::Act::line).collect(),
            Self::RegistrarRaw(acts) => acts.iter().map(registrar_raw::Act::line).collect(),
        }
    }
}
