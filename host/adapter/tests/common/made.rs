//! Made routines as functions with whole types.

use gen::{Rng, Sort};
use mir::function::MirDefinitionId;
use mir::{BasicBlockId, MirFunction, MirType, ValueId};
use oracle::form::{Routine, Type, TypeNo};
use oracle::{function_of, read, type_of, Spelling};

/// The functions of so many made routines, those aside whose types are too large to be written out:
/// typed and wild ones, near the mosts, with changes again and again, and with a twist.
pub fn made_functions(seed: u64, count: u64) -> impl Iterator<Item = MirFunction> {
    (0..count).filter_map(move |number| {
        let mut rng = Rng::of(seed, number);
        let bytes = match number % 20 {
            0..=6 => gen::of_sort(&mut rng, Sort::Typed),
            7..=12 => gen::of_sort(&mut rng, Sort::Wild),
            13 => gen::of_sort(&mut rng, Sort::Near),
            14..=15 => gen::churned(&mut rng),
            16 => gen::churned_deep(&mut rng),
            _ => gen::twisted(&mut rng),
        };
        whole_function(&read(&bytes).expect("these are routines"))
    })
}

/// The whole types of a routine's rows.
struct Whole {
    types: Vec<MirType>,
}

impl Spelling for Whole {
    fn ty(&self, ty: TypeNo) -> MirType {
        self.types[ty.index()].clone()
    }
}

/// The largest type that is written out, in types: 16 of 16 of 16 would be a whole page already.
const LARGEST: usize = 300;

/// The function of a routine with whole types, and with all that the byte form does not carry;
/// nothing where a type is too large to be written out.
fn whole_function(routine: &Routine) -> Option<MirFunction> {
    let mut whole = Whole { types: Vec::new() };
    let mut sizes: Vec<usize> = Vec::new();
    for row in &routine.types {
        let size = parts(row).iter().map(|part| sizes[part.index()]).sum::<usize>() + 1;
        if size > LARGEST {
            return None;
        }
        sizes.push(size);
        whole.types.push(type_of(row, &whole));
    }
    let mut function = function_of(routine, &whole);
    dress(&mut function);
    Some(function)
}

fn parts(row: &Type) -> Vec<TypeNo> {
    match row {
        Type::Tuple(parts) => parts.clone(),
        Type::Struct { fields, .. } => fields.iter().map(|(_, ty)| *ty).collect(),
        Type::FixedArray { element, .. } => vec![*element],
        Type::Pointer(element) => vec![*element],
        Type::Function { params, result } => params.iter().chain([result]).copied().collect(),
        _ => Vec::new(),
    }
}

/// Gives a function what the byte form does not carry.
fn dress(function: &mut MirFunction) {
    function.name = "dressed".to_string();
    function.return_values = vec![ValueId::new(0), ValueId::new(3)];
    let definition = MirDefinitionId { definition_index: 4, file_id: 9 };
    function.locals.insert(definition, ValueId::new(2));
    for (at, block) in (&mut function.basic_blocks).into_iter().enumerate() {
        block.name = Some(format!("block {at}"));
        block.preds.push(BasicBlockId::from_raw(at / 2));
        block.sealed = at % 2 == 0;
    }
}
