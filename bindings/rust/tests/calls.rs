//! What the package answers: worked rows, errors, runs, spellings, texts and names.

use vex::{decode, decode_all, opcode_named, recode, Error, Instruction, Settings};

#[test]
fn rows_are_recoded() {
    let rows: [(&str, &[u8], &str); 4] = [
        ("default", &[0xC4, 0xE1, 0x70, 0x58, 0xC2], "5 VADDPS x0 x1 x2 0 c5f058c2"),
        ("default", &[0xC4, 0xC1, 0x78, 0x28, 0xC0], "5 VMOVAPS x0 x8 0 c57829c0"),
        ("default", &[0xC5, 0xF8, 0x28, 0x00], "4 VMOVAPS x0 mq0/-/0 16 c5f82800"),
        ("haswell", &[0xC5, 0xF8, 0x77, 0xFF, 0xFF], "3 VZEROUPPER 0 c5f877"),
    ];
    for (name, bytes, line) in rows {
        let settings = Settings::named(name).unwrap();
        let (one, shortest) = recode(&settings, bytes).unwrap();
        let hex: String = shortest.iter().map(|byte| format!("{byte:02x}")).collect();
        assert_eq!(format!("{} {one} {hex}", one.length), line);
        assert_eq!(decode(&settings, bytes), Ok(one));
        assert_eq!(one.encode(), Ok(shortest));
    }
}

#[test]
fn refusals_are_told() {
    let all = Settings::default();
    assert_eq!(decode(&all, &[0x33, 0xC0]), Err(Error::Outside));
    assert_eq!(decode(&all, &[]), Err(Error::ExhaustedInput));
    assert_eq!(decode(&all, &[0xC5, 0xE8, 0x77]), Err(Error::InvalidOperand));
    let minimal = Settings::named("minimal").unwrap();
    assert_eq!(decode(&minimal, &[0xC5, 0xF0, 0x58, 0xC2]), Err(Error::InvalidOpcode));
    assert_eq!(Settings::named("i486"), Err(Error::NoSuchName));
    assert_eq!("VADDPS x0 x1 x99 0".parse::<Instruction>(), Err(Error::BadText));
    assert_eq!("VADDPS x0 0".parse::<Instruction>().unwrap().encode(), Err(Error::NoSpelling));
    let bad = Instruction { operand_count: 5, ..Instruction::default() };
    assert_eq!(bad.encode(), Err(Error::BadInstruction));
    assert_eq!(bad.to_string(), "(BadInstruction)");
}

#[test]
fn a_run_goes_into_each_room() {
    let bytes = [0xC5, 0xF8, 0x77, 0xC5, 0xF0, 0x58, 0xC2, 0xC5, 0xFA, 0x10, 0x07, 0x33];
    for (room, wanted) in [
        (0, (0, 0, Ok(()))),
        (1, (1, 3, Ok(()))),
        (3, (3, 11, Ok(()))),
        (4, (3, 11, Err(Error::Outside))),
    ] {
        let mut places = [Instruction::default(); 4];
        assert_eq!(decode_all(&Settings::default(), &bytes, &mut places[..room]), wanted);
        assert!(places[wanted.0..].iter().all(|place| *place == Instruction::default()));
    }
    let needed = Settings::needed(&bytes[..11]).unwrap();
    let mut places = [Instruction::default(); 4];
    assert_eq!(decode_all(&needed, &bytes[..11], &mut places), (3, 11, Ok(())));
}

#[test]
fn spellings_are_listed() {
    let sum = decode(&Settings::default(), &[0xC5, 0xF0, 0x58, 0xC2]).unwrap();
    let second: Vec<u8> = sum.spellings().map(|spelling| spelling[1]).collect();
    assert_eq!(second, [0xA1, 0xA1, 0xE1, 0xE1, 0xF0]);
}

#[test]
fn opcodes_have_names() {
    for opcode in 0..551 {
        let name = Instruction { opcode, ..Instruction::default() }.name().unwrap();
        assert_eq!(opcode_named(&name), Ok(opcode));
    }
    assert!(Instruction { opcode: 551, ..Instruction::default() }.name().is_err());
    assert!(vex::version().starts_with("vex "));
}
