// (file, what stands there once, what stands there instead)
const EDITS: &[(&str, &str, &str)] = &[
    // ---- the order of the endings, and what is charged ----
    (
        "machine",
        "Err(ending) => return ending,",
        r#"Err(ending) => {
            let charged = match ending {
                Ending::Fault(_) => bug("fault charged"),
                Ending::Blocked { .. } => bug("blocked charged"),
                Ending::NoRuleLeft => bug("no rule left charged"),
                Ending::Unhandled { .. } => bug("unhandled exception charged"),
                Ending::OutOfTime => bug("out of time counted as a step"),
                _ => false,
            };
            if charged {
                self.steps += 1;
            }
            return ending;
        }"#,
    ),
    (
        "machine",
        "if time > u64::from(self.limits.time) {",
        r#"if bug("stack before time") && self.depth_after(&change) > self.limits.stack {
            return Err(Ending::OutOfStack);
        }
        if time + u64::from(bug("time limit not reached")) > u64::from(self.limits.time) {"#,
    ),
    (
        "machine",
        "if self.depth_after(&change) > self.limits.stack {",
        r#"if bug("heap before stack") && self.heap.used() + heap::size_of_all(&change.objects) > self.limits.heap {
            return Err(Ending::OutOfHeap);
        }
        if self.depth_after(&change) + usize::from(bug("stack limit not reached")) > self.limits.stack {"#,
    ),
    (
        "machine",
        "if self.heap.used() + heap::size_of_all(&change.objects) > self.limits.heap {\n            return Err(Ending::OutOfHeap);\n        }\n        Ok((change, time))",
        r#"if self.heap.used() + heap::size_of_all(&change.objects) + usize::from(bug("heap limit not reached"))
            > self.limits.heap
        {
            return Err(Ending::OutOfHeap);
        }
        Ok((change, time))"#,
    ),
    (
        "machine",
        "let card = self.card[usize::from(opcode) - 1];",
        r#"let card = self.card[if bug("card read one off") { usize::from(opcode) % 40 } else { usize::from(opcode) - 1 }];
        let card = if bug("Schedule not charged") && change.finished { 0 } else { card };"#,
    ),
    (
        "machine",
        "let mut stay = next.goto(self.registers.pc);",
        r#"let mut stay = next.goto(self.registers.pc + usize::from(bug("pc leaves Schedule")));"#,
    ),
    // ---- peak and areas ----
    (
        "machine",
        "self.peak = self.peak.max(self.frames.depth());",
        r#"let skipped = match change.shape {
            Shape::Restart { .. } => bug("peak not updated at Raise"),
            Shape::Open { .. } => bug("peak not updated at CreateFrame"),
            _ => false,
        };
        if !skipped {
            self.peak = self.peak.max(self.frames.depth());
        }"#,
    ),
    (
        "machine",
        "self.frames.drop_values(change.take);",
        r#"if bug("peak taken inside the instruction") {
                    self.peak = self.peak.max(self.frames.depth() + change.give.len());
                }
                self.frames.drop_values(change.take);"#,
    ),
    (
        "frames",
        "area.fill(0);",
        r#"let kept = usize::from(bug("last stack word not zeroed")).min(area.len());
        let length = if bug("stack not zeroed") { 0 } else { area.len() - kept };
        area[..length].fill(0);"#,
    ),
    (
        "heap",
        "area.fill(0);",
        r#"let kept = usize::from(bug("last heap word not zeroed")).min(area.len());
        let length = if bug("heap not zeroed") { 0 } else { area.len() - kept };
        area[..length].fill(0);"#,
    ),
    (
        "wire",
        "words.fill(0);\n    words[0]",
        r#"if !(bug("emptied wire keeps its words") && tree.is_none()) {
        words.fill(0);
    }
    words[0]"#,
    ),
    // ---- arguments and matching ----
    (
        "machine",
        "let field = self.argument(self.registers.mp)?.as_field().ok_or(Fault::WrongKind)?;\n        next.registers.mp += 1;",
        r#"let word = self.argument(self.registers.mp + usize::from(bug("mp one off")))?;
        if bug("null only fails a match") && word == Word::Null {
            return self.fail(next);
        }
        let field = word.as_field().ok_or(Fault::WrongKind)?;
        next.registers.mp += 1;
        if bug("None matched faults") && field == Field::None {
            return Err(Fault::WrongKind.into());
        }"#,
    ),
    (
        "machine",
        "Field::Place(place) if fits(self.heap.at(place)) => Ok(next),\n            _ => self.fail(next),",
        r#"Field::Place(place) if fits(self.heap.at(place)) => Ok(next),
            _ => {
                if bug("mp not raised by a failed match") {
                    next.registers.mp -= 1;
                }
                self.fail(next)
            }"#,
    ),
    (
        "machine",
        "let input = self.registers.inp;",
        r#"let input = self.registers.inp + usize::from(bug("inp raised before the look"));"#,
    ),
    (
        "machine",
        "None => self.fail(next),",
        r#"None => {
                if bug("inp not raised by a failed match") {
                    next.registers.inp -= 1;
                }
                self.fail(next)
            }"#,
    ),
    (
        "machine",
        "Some(_) => Ok(next),",
        r#"Some(_) if bug("MatchAvailable the wrong way") => self.fail(next),
            None if bug("MatchAvailable the wrong way") => Ok(next),
            Some(_) => Ok(next),"#,
    ),
    (
        "machine",
        "next.registers.mp += 1;\n        next.registers.inp += 1;\n        next\n",
        r#"next.registers.mp += usize::from(!bug("MatchNone leaves mp"));
        next.registers.inp += usize::from(!bug("MatchNone leaves inp"));
        next
"#,
    ),
    (
        "machine",
        "let mut change = next.shape(Shape::DropAll);\n        change.registers.rp += 1;\n        change.registers.mp = 0;\n        change.registers.inp = 0;",
        r#"let mut change = if bug("MatchRule keeps the values") { next } else { next.shape(Shape::DropAll) };
        change.registers.rp += usize::from(!bug("MatchRule leaves rp"));
        if !bug("MatchRule leaves mp") {
            change.registers.mp = 0;
        }
        if !bug("MatchRule leaves inp") {
            change.registers.inp = 0;
        }"#,
    ),
    (
        "machine",
        "return Err(Fault::NoSuchRule.into());",
        r#"return Err(if bug("MatchRule ends with 3") { Ending::NoRuleLeft } else { Fault::NoSuchRule.into() });"#,
    ),
    (
        "machine",
        "I::MatchedRule => Ok(next.shape(Shape::DropAll)),",
        r#"I::MatchedRule if bug("MatchedRule keeps the values") => Ok(next),
            I::MatchedRule => Ok(next.shape(Shape::DropAll)),"#,
    ),
    (
        "machine",
        "I::StartMatches => Ok(next.goto(self.rule_at(0))),",
        r#"I::StartMatches => {
                let mut change = next.goto(self.rule_at(0));
                if bug("StartMatches clears rp") {
                    change.registers.rp = 0;
                }
                if bug("StartMatches goes to the box's rules") {
                    change.registers.pc = self.program.rulesets[0].rules[self.order[0][0]];
                }
                if bug("StartMatches goes to the rule at rp") {
                    let rp = self.registers.rp.min(self.program.rule_count(self.registers.ruleset) - 1);
                    change.registers.pc = self.rule_at(rp);
                }
                Ok(change)
            }"#,
    ),
    (
        "machine",
        "self.program.rulesets[ruleset].rules[self.order[ruleset][position]]",
        r#"let mut rule = self.order[ruleset][position];
        if bug("order words are positions") {
            rule = self.order[ruleset].iter().position(|own| *own == position).unwrap();
        }
        if bug("order is not looked at") {
            rule = position;
        }
        self.program.rulesets[ruleset].rules[rule]"#,
    ),
    (
        "machine",
        "let rp = self.registers.rp;\n        let mut order",
        r#"let rp = self.registers.rp.saturating_sub(usize::from(bug("Reorder moves rp-1")));
        let mut order"#,
    ),
    (
        "machine",
        "order[rp..].rotate_left(1);",
        r#"if bug("Reorder swaps with the last") {
                let last = order.len() - 1;
                order.swap(rp, last);
            } else {
                order[rp..].rotate_left(1);
            }"#,
    ),
    (
        "machine",
        "if rp == self.program.rule_count(self.registers.ruleset) {\n            return Err(Ending::NoRuleLeft);",
        r#"if rp + usize::from(bug("last rule not tried")) >= self.program.rule_count(self.registers.ruleset) {
            return Err(Ending::NoRuleLeft);"#,
    ),
    (
        "machine",
        "if own.to_bits() == float.to_bits()",
        r#"if own.to_bits() == float.to_bits() && !(bug("a NaN never matches") && own.is_nan())
                    || bug("floats matched by value") && *own == float"#,
    ),
    (
        "machine",
        "matches!(cell, Object::Tuple(own) if own.len() == fields)",
        r#"matches!(cell, Object::Tuple(own) if own.len() == fields || bug("MatchTuple without its size"))"#,
    ),
    (
        "machine",
        "if *own_tag == tag && own.len() == fields)",
        r#"if (*own_tag == tag || bug("MatchCon without its tag"))
                    && (own.len() == fields || bug("MatchCon without its size")))"#,
    ),
    (
        "machine",
        "if *own == exception)",
        r#"if *own == exception || bug("MatchExn without its number"))"#,
    ),
    // ---- calls, returns, exceptions ----
    (
        "machine",
        "change.registers.slp = self.frames.depth() + 3 + 1;",
        r#"change.registers.slp = self.frames.depth() + 3 + usize::from(!bug("slp is sp"));"#,
    ),
    (
        "machine",
        "change.registers.ruleset = ruleset;\n        change.registers.rp = 0;",
        r#"if !bug("the ruleset entered isn't current") {
            change.registers.ruleset = ruleset;
        }
        if !bug("rp kept when entering") {
            change.registers.rp = 0;
        }
        if bug("mp cleared when entering") {
            change.registers.mp = 0;
        }
        if bug("inp cleared when entering") {
            change.registers.inp = 0;
        }"#,
    ),
    (
        "machine",
        "change.goto(self.program.rulesets[ruleset].entry)",
        r#"let first_rule = bug("entered at the first rule");
        let ruleset = &self.program.rulesets[ruleset];
        change.goto(if first_rule { ruleset.rules[0] } else { ruleset.entry })"#,
    ),
    (
        "machine",
        "change.registers.ruleset = ruleset;\n                change.registers.rp = rp;\n                change.registers.slp = slp;",
        r#"if !bug("Return keeps the ruleset") {
                    change.registers.ruleset = ruleset;
                }
                if !bug("Return keeps rp") {
                    change.registers.rp = rp;
                }
                if !bug("Return keeps slp") {
                    change.registers.slp = slp;
                }"#,
    ),
    (
        "machine",
        "let result = self.value(0)?;",
        r#"if bug("Return tests the frame first") && self.frames.saved().is_none() {
            return Err(Fault::BadFrame.into());
        }
        let result = self.value(0)?;"#,
    ),
    (
        "machine",
        "change.registers.slp = 0;",
        r#"if !bug("Raise keeps slp") {
            change.registers.slp = 0;
        }"#,
    ),
    (
        "machine",
        "self.raise(next, exception, Field::None)?,",
        r#"{
                let change = self.raise(next, exception, Field::None)?;
                if bug("raising primitive without its cycles") {
                    return Ok(change);
                }
                change
            }"#,
    ),
    (
        "machine",
        "change.objects.push(Object::Exn(exception, field));",
        r#"let field = if bug("exception without its value") { Field::None } else { field };
        change.objects.push(Object::Exn(exception, field));"#,
    ),
    (
        "machine",
        "Some(place) => Ok(self.frames.word_at(place)),",
        r#"Some(0) if bug("lowest argument isn't there") => Err(Fault::NoSuchPlace.into()),
            Some(place) => Ok(self.frames.word_at(place)),"#,
    ),
    (
        "machine",
        "word @ (Word::Null | Word::Place(_) | Word::None) => Ok(next.give(word)),",
        r#"Word::Null if bug("CopyArg of null faults") => Err(Fault::WrongKind.into()),
            word if bug("CopyArg copies any word") => Ok(next.give(word)),
            word @ (Word::Null | Word::Place(_) | Word::None) => Ok(next.give(word)),"#,
    ),
    (
        "machine",
        "if self.frames.values().len() < 3 {\n            return Err(Fault::BadFrame.into());",
        r#"if self.frames.values().len() < 3 {
            return Err(if bug("CreateFrame gives 1") { Fault::TooFewValues } else { Fault::BadFrame }.into());"#,
    ),
    (
        "machine",
        "let word = self.value(0)?;\n                self.frames.locals().get(local)",
        r#"if bug("MakeVar tests the local first") {
                    self.frames.locals().get(local).ok_or(Fault::NoSuchPlace)?;
                }
                let word = self.value(0)?;
                self.frames.locals().get(local)"#,
    ),
    // ---- values, structures, primitives ----
    (
        "machine",
        "I::Copy(below) => Ok(next.give(self.value(below)?)),",
        r#"I::Copy(below) if bug("Copy counts from 1") => Ok(next.give(self.value(below.saturating_sub(1))?)),
            I::Copy(below) => Ok(next.give(self.value(below)?)),"#,
    ),
    (
        "machine",
        "self.need(count + 1)?;\n                Ok(next.take(count + 1)",
        r#"if bug("Slide needs one less") && self.frames.values().len() == count && count > 0 {
                    return Ok(next.take(count).give(self.value(0)?));
                }
                self.need(count + 1)?;
                Ok(next.take(count + 1)"#,
    ),
    (
        "machine",
        "fields.ok_or(Fault::WrongKind.into())",
        r#"let fields = fields.map(|mut fields| {
            if bug("field 0 is the lowest") {
                fields.reverse();
            }
            fields
        });
        fields.ok_or(Fault::WrongKind.into())"#,
    ),
    (
        "frames",
        "Word::None => Some(Field::None),",
        r#"Word::None => Some(Field::None),
            Word::Null if bug("null passes for None") => Some(Field::None),"#,
    ),
    (
        "machine",
        "Object::Tuple(fields) | Object::Constr(_, fields) => Ok(unpack(next, fields)),",
        r#"Object::Exn(_, field) if bug("Unpack of an Exn") => Ok(unpack(next, &[*field])),
                Object::Tuple(fields) | Object::Constr(_, fields) if bug("Unpack pushes the last first") => {
                    let fields: Vec<Field> = fields.iter().rev().copied().collect();
                    Ok(unpack(next, &fields))
                }
                Object::Tuple(fields) | Object::Constr(_, fields) => Ok(unpack(next, fields)),"#,
    ),
    (
        "machine",
        "Object::Bool(false) => Ok(next.take(1)),",
        r#"Object::Bool(false) => Ok(next.take(1)),
                Object::Int(_) if bug("If takes an Int for false") => Ok(next.take(1)),"#,
    ),
    (
        "primitives",
        "(Object::Int(x), Object::Int(y)) => integers(number, *x, *y),",
        r#"(Object::Bool(false), _) if bug("&& looks at one only") && number == 12 => {
            Some(Yield::Value(Object::Bool(false)))
        }
        (Object::Int(x), Object::Int(y)) if bug("operands swapped") => integers(number, *y, *x),
        (Object::Int(0), _) if bug("zero dividend raises") && number == 10 => Some(Yield::Exception(1)),
        (_, Object::Int(0)) if bug("zero divisor before kinds") && number == 10 => Some(Yield::Exception(1)),
        (Object::Int(x), Object::Int(y)) => integers(number, *x, *y),"#,
    ),
    (
        "primitives",
        "10 => Object::Int(x.wrapping_div(y)),",
        r#"10 if bug("div rounds down") => Object::Int((f64::from(x) / f64::from(y)).floor() as i64 as i32),
        10 => Object::Int(x.wrapping_div(y)),"#,
    ),
    (
        "primitives",
        "11 => Object::Int(x.wrapping_rem(y)),",
        r#"11 if bug("mod has the divisor's sign") => {
            let rest = x.wrapping_rem(y);
            Object::Int(if rest != 0 && (rest < 0) != (y < 0) { rest.wrapping_add(y) } else { rest })
        }
        11 => Object::Int(x.wrapping_rem(y)),"#,
    ),
    (
        "primitives",
        "7 => Object::Int(x.wrapping_add(y)),",
        r#"7 if bug("+ stays in range") => Object::Int(x.saturating_add(y)),
        7 => Object::Int(x.wrapping_add(y)),"#,
    ),
    (
        "primitives",
        "(2, Object::Int(integer)) => Object::Float(*integer as f32),",
        r#"(2, Object::Int(integer)) if bug("toFloat cuts off") => {
            let float = *integer as f32;
            let above = f64::from(float).abs() > f64::from(*integer).abs();
            Object::Float(f32::from_bits(float.to_bits() - u32::from(above)))
        }
        (2, Object::Int(integer)) if bug("toFloat rounds ties up") => {
            let float = *integer as f32;
            let up = f32::from_bits(float.to_bits() + 1);
            let (low, high) = (f64::from(float).abs(), f64::from(up).abs());
            let tie = f64::from(*integer).abs() * 2.0 == low + high;
            Object::Float(if tie && *integer != 0 { up } else { float })
        }
        (2, Object::Int(integer)) => Object::Float(*integer as f32),"#,
    ),
    (
        "primitives",
        "(-2_147_483_648.0..=2_147_483_647.0)",
        r#"(-2_147_483_648.0..=2_147_483_647.0 + f64::from(u8::from(bug("toInt takes 2^31"))))"#,
    ),
    (
        "primitives",
        "let whole = f64::from(float).trunc();",
        r#"let whole = if bug("toInt rounds down") { f64::from(float).floor() } else { f64::from(float).trunc() };"#,
    ),
    (
        "primitives",
        "21 => Object::Float(canonical(x * y)),",
        r#"21 if bug("NaN of * not made canonical") => Object::Float(x * y),
        21 => Object::Float(canonical(x * y)),"#,
    ),
    (
        "primitives",
        "22 => Object::Float(canonical(x / y)),",
        r#"22 if bug("/ rounded twice") => Object::Float(canonical(x * (1.0 / y))),
        22 => Object::Float(canonical(x / y)),"#,
    ),
    (
        "primitives",
        "14 => Object::Bool(x == y),",
        r#"14 if bug("==.f by bits") => Object::Bool(x.to_bits() == y.to_bits()),
        14 => Object::Bool(x == y),"#,
    ),
    (
        "primitives",
        "15 => Object::Bool(x >= y),",
        r#"15 if bug(">=.f is not <.f") => Object::Bool(x >= y || x.is_nan() || y.is_nan()),
        15 => Object::Bool(x >= y),"#,
    ),
    (
        "primitives",
        "table.get(number.checked_sub(1)?).copied()",
        r#"let cost = table.get(number.checked_sub(1)?).copied()?;
    Some(if bug("a cycle too many for -.f") && cost == 1112 { 1113 } else { cost })"#,
    ),
    // ---- heap and wires ----
    (
        "heap",
        "trees.iter().map(|tree| copy(tree, start, objects)).collect()",
        r#"if bug("fields placed last first") {
        let mut fields: Vec<Field> = trees.iter().rev().map(|tree| copy(tree, start, objects)).collect();
        fields.reverse();
        return fields;
    }
    trees.iter().map(|tree| copy(tree, start, objects)).collect()"#,
    ),
    (
        "machine",
        "Ok(next.give(Word::from_field(field)))\n    }\n\n    fn output",
        r#"if bug("CopyInput empties the wire") {
            next.wire = Some((input, None));
        }
        Ok(next.give(Word::from_field(field)))
    }

    fn output"#,
    ),
    (
        "machine",
        "I::Consume(input) | I::MaybeConsume(input) => Ok(next.wire(input, None)),",
        r#"I::Consume(input) if bug("Consume of an empty wire faults") && self.wires[input].is_none() => {
                Err(Fault::WireEmpty.into())
            }
            I::MaybeConsume(_) if bug("MaybeConsume does nothing") => Ok(next),
            I::Consume(input) | I::MaybeConsume(input) => Ok(next.wire(input, None)),"#,
    ),
    (
        "machine",
        "let fields = self.fields(self.program.outputs)?;\n        for (output, field) in fields.iter().enumerate() {",
        r#"let fields = self.fields(self.program.outputs + usize::from(bug("one output too many")));
        if bug("blocked before a wrong word") {
            for output in 0..self.program.outputs {
                let place = matches!(self.value(output), Ok(Word::Place(_)));
                if place && self.output(output).is_some() && self.frames.values().len() >= self.program.outputs {
                    return Err(Ending::Blocked { output });
                }
            }
        }
        let mut fields: Vec<(usize, Field)> = fields?.into_iter().enumerate().take(self.program.outputs).collect();
        if bug("the highest output blocks") {
            fields.reverse();
        }
        for (output, field) in &fields {
            let output = *output;"#,
    ),
    (
        "machine",
        "if *field != Field::None && self.output(output).is_some() {",
        r#"let full = self.output(output).is_some() != bug("available read the wrong way");
            if (*field != Field::None || bug("None blocks")) && full {"#,
    ),
    (
        "machine",
        "Field::None => return Ok(next.take(1)),",
        r#"Field::None if bug("None to a full wire faults") && self.output(output).is_some() => {
                return Err(Fault::WireFull.into());
            }
            Field::None => return Ok(next.take(1)),"#,
    ),
    (
        "machine",
        "if self.output(output).is_some() {\n            return Err(Fault::WireFull.into());",
        r#"let too_long = self.heap.spread(place, &mut { ROOM }).is_none();
        if bug("too long before full") && too_long {
            return Err(Fault::ValueTooLong.into());
        }
        if !bug("a full wire is written over") && self.output(output).is_some() {
            return Err(Fault::WireFull.into());"#,
    ),
    (
        "machine",
        "let mut room = ROOM;",
        r#"let mut room = ROOM - usize::from(bug("63 words")) + usize::from(bug("65 words"));"#,
    ),
    // ---- what is turned away ----
    (
        "image",
        "bytes.small(1).filter(|inputs| *inputs <= 8)?;",
        r#"bytes.small(1).filter(|inputs| *inputs <= 8 + usize::from(bug("9 inputs taken")))?;"#,
    ),
    (
        "image",
        "bytes.small(1).filter(|outputs| *outputs <= 8)?;",
        r#"bytes.small(1).filter(|outputs| *outputs <= 8 + usize::from(bug("9 outputs taken")))?;"#,
    ),
    (
        "image",
        "bytes.small(1).filter(|count| (1..=32).contains(count))?;",
        r#"bytes.small(1).filter(|count| (1..=32 + usize::from(bug("33 rulesets taken"))).contains(count))?;"#,
    ),
    (
        "image",
        "bytes.small(1).filter(|count| (1..=16).contains(count))?;",
        r#"bytes
        .small(1)
        .filter(|count| (usize::from(!bug("no rules taken"))..=16 + usize::from(bug("17 rules taken"))).contains(count))?;"#,
    ),
    (
        "image",
        "(1..=4096).contains(length)",
        r#"(1..=4096 + usize::from(bug("4097 instructions taken"))).contains(length)"#,
    ),
    (
        "image",
        "if number < count { Some(number) } else { None };",
        r#"if number < count || bug("a number one too high taken") && number == count {
        Some(number)
    } else {
        None
    };"#,
    ),
    (
        "lent",
        "if words.len() != WIRE * (program.inputs + program.outputs) {",
        r#"if words.len() != WIRE * (program.inputs + program.outputs)
        && !(bug("longer wires taken") && words.len() > WIRE * (program.inputs + program.outputs))
    {"#,
    ),
    (
        "lent",
        "if words.len() != total {",
        r#"if words.len() != total && !(bug("longer order taken") && words.len() > total) {"#,
    ),
    (
        "wire",
        "EXN if *payload == 1 =>",
        r#"EXN if *payload == 1 || bug("any Exn size taken") =>"#,
    ),
    (
        "wire",
        "(tree, []) => Some(Some(tree)),",
        r#"(tree, rest) if rest.is_empty() || bug("a second value taken") => Some(Some(tree)),"#,
    ),
    (
        "lib",
        "lent::check_card(loan.card)?;",
        r#"if bug("limits before the card") {
        lent::check_limits(loan.stack_limit, loan.stack.len(), loan.heap_limit, loan.heap.len())?;
    }
    if bug("order before the wires") {
        lent::check_card(loan.card)?;
        lent::check_limits(loan.stack_limit, loan.stack.len(), loan.heap_limit, loan.heap.len())?;
        lent::read_order(&program, loan.order)?;
    }
    if bug("wires before the limits") {
        lent::check_card(loan.card)?;
        lent::read_wires(&program, loan.wires)?;
    }
    lent::check_card(loan.card)?;"#,
    ),
    (
        "lent",
        "let good = card.len() == 40 && card.iter().all(|entry| (1..=65535).contains(entry));",
        r#"let low = u32::from(!bug("card of 0 taken"));
    let high = 65535 + u32::from(bug("card of 65536 taken"));
    let good = (card.len() == 40 || bug("longer card taken") && card.len() > 40)
        && card.iter().all(|entry| (low..=high).contains(entry));"#,
    ),
    (
        "lent",
        "let good = stack <= 4096 && heap <= 16384 && stack as usize <= stack_area && heap as usize <= heap_area;",
        r#"let good = (stack <= 4096 || bug("S above its cap taken"))
        && (heap <= 16384 || bug("H above its cap taken"))
        && (stack as usize <= stack_area || bug("S above its area taken"))
        && (heap as usize <= heap_area || bug("H above its area taken"));"#,
    ),
    (
        "lent",
        "words.chunks(WIRE).map(|wire| wire::read(wire).ok_or(7)).collect()",
        r#"if bug("output wires not looked at") {
        return words
            .chunks(WIRE)
            .enumerate()
            .map(|(number, wire)| match wire::read(wire) {
                Some(tree) => Ok(tree),
                None if number >= program.inputs => Ok(None),
                None => Err(7),
            })
            .collect();
    }
    words.chunks(WIRE).map(|wire| wire::read(wire).ok_or(7)).collect()"#,
    ),
    (
        "wire",
        "if rest.iter().any(|word| *word != 0) {",
        r#"if rest.iter().any(|word| *word != 0) && !bug("words after the value taken") {"#,
    ),
    (
        "wire",
        "(Tree::None, _) => None,",
        r#"(Tree::None, _) if !bug("None as a whole value taken") => None,"#,
    ),
    (
        "wire",
        "if tag != 0 && kind != CONSTR && kind != EXN {",
        r#"if tag != 0 && kind != CONSTR && kind != EXN && !bug("any tag taken") {"#,
    ),
    (
        "wire",
        "BOOL if *payload <= 1 => Some((Tree::Bool(*payload == 1), rest)),",
        r#"BOOL if *payload <= 1 || bug("any Bool taken") => Some((Tree::Bool(*payload == 1), rest)),"#,
    ),
    (
        "wire",
        "if float.is_nan() && bits != 0x7FC0_0000 {",
        r#"if float.is_nan() && bits != 0x7FC0_0000 && !bug("any NaN taken") {"#,
    ),
    (
        "lent",
        "let permutes = ",
        r#"let permutes = bug("order words below the count taken")
        && words.iter().all(|word| (*word as usize) < words.len())
        || "#,
    ),
    (
        "image",
        "return Err(2);",
        r#"return Err(if bug("counts before the version") && read_counts(&mut bytes).is_none() { 3 } else { 2 });"#,
    ),
    (
        "image",
        "if (!has_a && a != 0) || (!has_b && b != 0) || (!has_c && c != 0) {",
        r#"if (!has_a && a != 0 && !bug("unused a taken"))
        || (!has_b && b != 0 && !bug("unused b taken"))
        || (!has_c && c != 0 && !bug("unused c taken"))
    {"#,
    ),
    (
        "image",
        "let truth = |c: u32| if c <= 1 { Some(c == 1) } else { None };",
        r#"let truth = |c: u32| if c <= 1 || bug("any c taken for a Bool") { Some(c == 1) } else { None };"#,
    ),
    (
        "image",
        "_ => Err(4),",
        r#"_ if bug("any last instruction taken") => Ok(program),
        _ => Err(4),"#,
    ),
    (
        "image",
        "ruleset.entry < length && ruleset.rules.iter().all(|rule| *rule < length)",
        r#"ruleset.entry < length && ruleset.rules.iter().all(|rule| *rule < length + usize::from(bug("rule at the end taken")))"#,
    ),
    (
        "image",
        "handler if handler < count => Some(handler),",
        r#"handler if handler < count => Some(handler),
        254 if bug("handler 254 taken for none") => None,
        handler if handler == count && bug("handler R taken") => Some(0),"#,
    ),
    (
        "image",
        "3 => MkFloat(primitives::canonical(f32::from_bits(c))),",
        r#"3 if bug("MkFloat keeps its NaN") => MkFloat(f32::from_bits(c)),
        3 => MkFloat(primitives::canonical(f32::from_bits(c))),"#,
    ),
    (
        "image",
        "29 => MatchFloat(primitives::canonical(f32::from_bits(c))),",
        r#"29 if bug("MatchFloat keeps its NaN") => MatchFloat(f32::from_bits(c)),
        29 => MatchFloat(primitives::canonical(f32::from_bits(c))),"#,
    ),
    (
        "image",
        "if bytes.0.len() != 8 * length {",
        r#"if bytes.0.len() != 8 * length && !(bug("bytes after the image taken") && bytes.0.len() > 8 * length) {"#,
    ),
];
