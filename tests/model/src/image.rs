//! Stores as packed bits: form 0 (document 01, "The image"), which has one depth for all shafts, form 1 (document 02, 7/13), which has one for each, and
//! form 2 (8/13), which is form 1 with cassette numbers of 12 bits.

use crate::store::{BLANK, NUMBERS, Store};

/// The form of an image.
#[derive(Clone, Copy, Debug, PartialEq, Eq)]
pub enum Form {
    OneDepth = 0,
    Depths = 1,
    Wide = 2,
}

/// The byte that is the blank in forms 0 and 1. Their cassettes have lower numbers.
const BLANK_BYTE: u16 = 255;

impl Form {
    /// All forms, rising.
    pub const ALL: [Form; 3] = [Form::OneDepth, Form::Depths, Form::Wide];

    /// The form of a number, or 1 where there is none.
    pub fn named(number: u8) -> Result<Form, u8> {
        Form::ALL.get(usize::from(number)).copied().ok_or(1)
    }

    /// How many bits a cassette's number has.
    pub fn width(self) -> usize {
        match self {
            Form::OneDepth | Form::Depths => 8,
            Form::Wide => 12,
        }
    }

    /// A store has an image in this form. If not, it is an 18 to write it so.
    pub fn holds(self, store: &Store) -> bool {
        let byte = |&it: &u16| it < BLANK_BYTE || it == BLANK;
        match self {
            Form::OneDepth => store.equal_depths() && Form::Depths.holds(store),
            Form::Depths => store.shafts.iter().flatten().all(byte),
            Form::Wide => true,
        }
    }

    /// The cassette that a field of this form means.
    fn meant(self, field: u16) -> u16 {
        match self {
            Form::OneDepth | Form::Depths if field == BLANK_BYTE => BLANK,
            _ => field,
        }
    }

    /// The field of this form that means a cassette.
    fn field(self, cassette: u16) -> u16 {
        match self {
            Form::OneDepth | Form::Depths if cassette == BLANK => BLANK_BYTE,
            _ => cassette,
        }
    }
}

/// Fields read from bytes, most significant bit first.
struct Fields<'a> {
    bytes: &'a [u8],
    bit: usize,
}

impl Fields<'_> {
    /// The next field, or 2 where the bytes end before it does.
    fn next(&mut self, width: usize) -> Result<u16, u8> {
        let end = self.bit + width;
        if end > self.bytes.len() * 8 {
            return Err(2);
        }
        let value = (self.bit..end).fold(0, |value, bit| value << 1 | bit_of(self.bytes, bit));
        self.bit = end;
        Ok(value)
    }

    /// Only zero bits are left, and all of them in the byte of the last field.
    fn ended(&self) -> bool {
        let all = self.bytes.len() * 8;
        all - self.bit < 8 && (self.bit..all).all(|bit| bit_of(self.bytes, bit) == 0)
    }
}

fn bit_of(bytes: &[u8], bit: usize) -> u16 {
    (bytes[bit / 8] >> (7 - bit % 8) & 1).into()
}

/// The form that bytes name, or the number of the fault in it.
pub fn form_of(bytes: &[u8]) -> Result<Form, u8> {
    let first = bytes.first().ok_or(2)?;
    Form::named(first >> 4)
}

/// The store that an image means, or the number of the first fault met.
pub fn read(bytes: &[u8]) -> Result<Store, u8> {
    let form = form_of(bytes)?;
    let mut fields = Fields { bytes, bit: 4 };
    let m = fields.next(4)? + 1;
    let mut depth = match form {
        Form::OneDepth => fields.next(4)? + 1,
        Form::Depths | Form::Wide => 0,
    };
    let mut store = Store::empty_of(&[]);
    let mut seen = [false; NUMBERS + 1];
    for _ in 0..m {
        if form != Form::OneDepth {
            depth = fields.next(4)? + 1;
        }
        store.depths.push(depth.into());
        let height = fields.next(5)?;
        if height > depth {
            return Err(3);
        }
        let cassettes = (0..height).map(|_| read_cassette(&mut fields, form, &mut seen));
        store.shafts.push(cassettes.collect::<Result<_, _>>()?);
    }
    if fields.ended() { Ok(store) } else { Err(7) }
}

fn read_cassette(
    fields: &mut Fields,
    form: Form,
    seen: &mut [bool; NUMBERS + 1],
) -> Result<u16, u8> {
    let cassette = form.meant(fields.next(form.width())?);
    if cassette == 0 {
        return Err(4);
    }
    let stood = std::mem::replace(&mut seen[usize::from(cassette)], true);
    if stood && cassette != BLANK {
        return Err(5);
    }
    Ok(cassette)
}

/// A field to be packed.
#[derive(Clone, Copy)]
pub struct Field {
    pub width: usize,
    pub value: usize,
}

/// The fields of a store's image in a form that holds it, in order.
pub fn fields(store: &Store, form: Form) -> Vec<Field> {
    assert!(form.holds(store), "{store:?} in form {}", form as u8);
    let field = |width, value| Field { width, value };
    let mut fields = vec![field(4, form as usize), field(4, store.m() - 1)];
    if form == Form::OneDepth {
        fields.push(field(4, store.depths[0] - 1));
    }
    for (shaft, depth) in store.shafts.iter().zip(&store.depths) {
        if form != Form::OneDepth {
            fields.push(field(4, depth - 1));
        }
        fields.push(field(5, shaft.len()));
        let cassette = |&it: &u16| field(form.width(), form.field(it).into());
        fields.extend(shaft.iter().map(cassette));
    }
    fields
}

/// Fields packed with no gaps, then zero bits to the end of the byte.
pub fn pack(fields: &[Field]) -> Vec<u8> {
    let bits: usize = fields.iter().map(|field| field.width).sum();
    let mut bytes = vec![0; bits.div_ceil(8)];
    let mut at = 0;
    for field in fields {
        for place in (0..field.width).rev() {
            bytes[at / 8] |= ((field.value >> place & 1) as u8) << (7 - at % 8);
            at += 1;
        }
    }
    bytes
}

/// The image of a store in a form that holds it.
pub fn write_in(store: &Store, form: Form) -> Vec<u8> {
    pack(&fields(store, form))
}

/// The first form that holds a store.
pub fn first_form(store: &Store) -> Form {
    let mut forms = Form::ALL.into_iter();
    forms
        .find(|form| form.holds(store))
        .expect("form 2 holds all")
}

/// The image of a store in the first form that holds it.
pub fn write_first(store: &Store) -> Vec<u8> {
    write_in(store, first_form(store))
}

/// The image of a store in the form of a number: 1 where there is no such form, then 18 where it can't hold the store.
pub fn write_as(store: &Store, number: u8) -> Result<Vec<u8>, u8> {
    let form = Form::named(number)?;
    if form.holds(store) {
        Ok(write_in(store, form))
    } else {
        Err(18)
    }
}

/// The store of an image, in the form of a number: the faults of reading come first.
pub fn convert(bytes: &[u8], number: u8) -> Result<Vec<u8>, u8> {
    write_as(&read(bytes)?, number)
}

/// How many bytes the image of a store has in a form that holds it.
pub fn length(store: &Store, form: Form) -> usize {
    let depths = match form {
        Form::OneDepth => 1,
        Form::Depths | Form::Wide => store.m(),
    };
    let bits = 4 + 4 + 4 * depths + 5 * store.m() + form.width() * store.n();
    bits.div_ceil(8)
}

#[cfg(test)]
mod tests {
    use super::*;
    use crate::store::MOST_ORDINARY;
    use crate::{Random, text};

    /// The example of document 01.
    const EXAMPLE: [u8; 7] = [0x02, 0x11, 0x00, 0x81, 0x00, 0x20, 0x60];

    fn packed(fields: &[(usize, usize)]) -> Vec<u8> {
        let field = |&(width, value)| Field { width, value };
        pack(&fields.iter().map(field).collect::<Vec<_>>())
    }

    fn store(text: &str) -> Store {
        text::read(text).unwrap()
    }

    /// A full store of 16 x 16.
    fn full(cassettes: &[u16]) -> Store {
        assert_eq!(cassettes.len(), 256);
        Store::of_depth(16, cassettes.chunks(16).map(<[u16]>::to_vec).collect())
    }

    #[test]
    fn example_of_document_01() {
        let store = Store::of_depth(2, vec![vec![1, 2], vec![], vec![3]]);
        assert_eq!(read(&EXAMPLE), Ok(store.clone()));
        assert_eq!(write_in(&store, Form::OneDepth), EXAMPLE);
        assert_eq!(write_first(&store), EXAMPLE);
    }

    /// The same store in forms 1 and 2, packed by hand: in form 2 the cassettes are 001 002 003.
    #[test]
    fn the_example_in_forms_1_and_2() {
        let store = read(&EXAMPLE).unwrap();
        let one = [0x12, 0x11, 0x00, 0x81, 0x08, 0x04, 0x20, 0x60];
        // 0010 0010, 0001 00010 000000000001 000000000010, 0001 00000, 0001 00001 000000000011, 0 of padding
        let two = [0x22, 0x11, 0x00, 0x08, 0x01, 0x08, 0x04, 0x20, 0x06];
        for (form, image) in [(Form::Depths, &one[..]), (Form::Wide, &two)] {
            assert_eq!(write_in(&store, form), image);
            assert_eq!(read(image).as_ref(), Ok(&store));
            assert_eq!(form_of(image), Ok(form));
        }
    }

    /// Bytes packed by hand: m = 2, depth 3 and [1 2], depth 1 and [3].
    #[test]
    fn unequal_depths_by_hand() {
        let store = Store {
            depths: vec![3, 1],
            shafts: vec![vec![1, 2], vec![3]],
        };
        // 0001 0001, 0010 00010 00000001 00000010, 0000 00001 00000011, 000000 of padding
        let image = [0x11, 0x21, 0x00, 0x81, 0x00, 0x40, 0xC0];
        assert_eq!(write_in(&store, Form::Depths), image);
        assert_eq!(read(&image), Ok(store));
    }

    /// Bytes packed by hand: m = 2, depth 2 and [255 b], depth 1 and [4094].
    #[test]
    fn wide_numbers_by_hand() {
        let store = store("2x2,1: [255 b] [4094]");
        // 0010 0001, 0001 00010 000011111111 111111111111, 0000 00001 111111111110, 00 of padding
        let image = [0x21, 0x11, 0x07, 0xFF, 0xFF, 0x80, 0x7F, 0xF8];
        assert_eq!(write_in(&store, Form::Wide), image);
        assert_eq!(read(&image).as_ref(), Ok(&store));
        assert_eq!(first_form(&store), Form::Wide);
    }

    /// Which forms hold a store: by its numbers, and by its depths.
    #[test]
    fn forms_that_hold_a_store() {
        let forms = |text: &str| Form::ALL.map(|form| form.holds(&store(text)));
        assert_eq!(forms("2x2: [1 254] [b b]"), [true, true, true]);
        assert_eq!(forms("2x2,1: [1 254] [b]"), [false, true, true]);
        for number in [255, 256, 510, 4093, MOST_ORDINARY] {
            let equal = format!("2x2: [1 {number}] [b b]");
            let unequal = format!("2x2,1: [1 b] [{number}]");
            assert_eq!(forms(&equal), [false, false, true]);
            assert_eq!(forms(&unequal), [false, false, true]);
        }
        assert_eq!(forms("1x1: []"), [true, true, true]);
    }

    /// What each form reads a number as, and writes it as.
    #[test]
    fn what_the_numbers_mean() {
        for (form, number, cassette) in [
            (Form::OneDepth, 254, 254),
            (Form::Depths, 254, 254),
            (Form::Wide, 254, 254),
            (Form::OneDepth, 255, BLANK),
            (Form::Depths, 255, BLANK),
            (Form::Wide, 255, 255),
            (Form::Wide, 256, 256),
            (Form::Wide, 4094, 4094),
            (Form::Wide, 4095, BLANK),
        ] {
            let head = [(4, form as usize), (4, 0), (4, 0), (5, 1)];
            let image = packed(&[&head[..], &[(form.width(), number)]].concat());
            let store = Store::of_depth(1, vec![vec![cassette]]);
            assert_eq!(read(&image).as_ref(), Ok(&store), "{form:?} {number}");
            assert_eq!(write_in(&store, form), image, "{form:?} {number}");
        }
    }

    /// What was written in any form that holds a store is read as the store, and converts to its image in each of them. The others can't hold it.
    #[test]
    fn there_and_back_in_each_form() {
        let mut random = Random::new(7);
        let mut held = [0; 3];
        for _ in 0..3_000 {
            let (m, most) = (random.from_to(1, 4), random.from_to(1, 16));
            let depths = random.depths(m, most);
            let n = random.from_to(0, depths.iter().sum());
            let cassettes = random.cassettes(n);
            let store = random.in_shafts(&depths, cassettes);
            let images: Vec<_> = (0..3).map(|form| write_as(&store, form)).collect();
            for form in Form::ALL {
                let Ok(image) = &images[form as usize] else {
                    assert_eq!(images[form as usize], Err(18));
                    assert!(!form.holds(&store));
                    continue;
                };
                held[form as usize] += 1;
                assert_eq!(read(image).as_ref(), Ok(&store));
                assert_eq!(form_of(image), Ok(form));
                assert_eq!(image.len(), length(&store, form));
                let converted: Vec<_> = (0..3).map(|to| convert(image, to)).collect();
                assert_eq!(converted, images);
                assert_eq!(convert(image, 3), Err(1));
            }
            assert_eq!(
                images.iter().find(|it| it.is_ok()),
                Some(&Ok(write_first(&store)))
            );
        }
        let [zero, one, two] = held;
        assert!(
            300 < zero && zero + 300 < one && one + 600 < two,
            "{held:?}"
        );
    }

    /// 18 comes after the faults of reading and after 1.
    #[test]
    fn faults_of_converting_in_their_order() {
        let wide = write_first(&store("2x2,1: [1 300] [2]"));
        for (number, fault) in [(0, 18), (1, 18), (3, 1), (16, 1), (255, 1)] {
            assert_eq!(convert(&wide, number), Err(fault), "form {number}");
            let cut = &wide[..wide.len() - 1];
            assert_eq!(convert(cut, number), Err(2), "form {number}");
        }
        assert_eq!(convert(&wide, 2), Ok(wide));
    }

    #[test]
    #[should_panic(expected = "in form 0")]
    fn unequal_depths_have_no_image_in_form_0() {
        write_in(&Store::empty_of(&[3, 1]), Form::OneDepth);
    }

    #[test]
    #[should_panic(expected = "in form 1")]
    fn number_255_has_no_image_in_form_1() {
        write_in(&store("1x1: [255]"), Form::Depths);
    }

    #[test]
    fn longest_images() {
        let different: Vec<u16> = (1..=254).chain([BLANK, BLANK]).collect();
        let past: Vec<u16> = (3_839..=4_094).collect();
        for (cassettes, lengths) in [
            (&different[..], [Some(268), Some(275), Some(403)]),
            (&[BLANK; 256], [Some(268), Some(275), Some(403)]),
            (&past, [None, None, Some(403)]),
        ] {
            let store = full(cassettes);
            for (number, length) in (0..).zip(lengths) {
                let image = write_as(&store, number).ok();
                assert_eq!(image.as_ref().map(Vec::len), length);
                assert!(image.is_none_or(|it| read(&it).as_ref() == Ok(&store)));
            }
        }
    }

    /// Every number a second time in each form that holds it, beside it and with another between.
    #[test]
    fn only_the_blank_stands_twice() {
        for number in (1..=300).chain(4_000..=BLANK) {
            let other = if number == 1 { 2 } else { 1 };
            for shafts in [
                vec![vec![number, number]],
                vec![vec![number, other], vec![number]],
            ] {
                let store = Store::of_depth(2, shafts);
                let wanted = match number {
                    BLANK => Ok(store.clone()),
                    _ => Err(5),
                };
                for form in Form::ALL.into_iter().filter(|form| form.holds(&store)) {
                    assert_eq!(read(&write_in(&store, form)), wanted, "{number} {form:?}");
                }
            }
        }
    }

    #[test]
    fn a_cassette_twice_among_blanks() {
        for number in [7, 255, 4094] {
            let shafts = vec![vec![BLANK, number, BLANK], vec![BLANK, number]];
            let store = Store::of_depth(3, shafts);
            assert_eq!(read(&write_first(&store)), Err(5));
        }
    }

    /// Numbers that share their low bits, or all but one of their bits, are different cassettes.
    #[test]
    fn numbers_that_differ_in_one_bit() {
        for number in [1, 64, 255, 256, 2_048, 4_094] {
            for bit in 0..12 {
                let other = number ^ (1 << bit);
                if ![0, number].contains(&other) {
                    let store = Store::of_depth(2, vec![vec![number, other]]);
                    assert_eq!(read(&write_first(&store)).as_ref(), Ok(&store));
                }
            }
        }
    }

    #[test]
    fn each_fault_of_reading() {
        assert_eq!(read(&[]), Err(2));
        for form in 3..16 {
            assert_eq!(read(&[form << 4]), Err(1), "form {form}");
        }
        assert_eq!(read(&[0x01, 0x11]), Err(2));
        assert_eq!(read(&EXAMPLE[..6]), Err(2));
        assert_eq!(read(&packed(&[(4, 0), (4, 0), (4, 1), (5, 3)])), Err(3));
        assert_eq!(
            read(&packed(&[(4, 0), (4, 0), (4, 1), (5, 1), (8, 0)])),
            Err(4)
        );
        let twice = [(4, 0), (4, 0), (4, 1), (5, 2), (8, 9), (8, 9)];
        assert_eq!(read(&packed(&twice)), Err(5));
        let mut set = EXAMPLE;
        set[6] = 0x61;
        assert_eq!(read(&set), Err(7));
        assert_eq!(read(&[&EXAMPLE[..], &[0]].concat()), Err(7));
    }

    /// A height of 3 is above a depth of 2, whichever shaft has it and however deep the others are.
    #[test]
    fn each_fault_of_reading_in_forms_1_and_2() {
        for form in [Form::Depths, Form::Wide] {
            let width = form.width();
            let head = |m: usize| [(4, form as usize), (4, m - 1)];
            let one = |fields: &[(usize, usize)]| [&head(1)[..], fields].concat();
            let two = |fields: &[(usize, usize)]| [&head(2)[..], fields].concat();
            let faults = [
                (one(&[]), 2),
                (one(&[(4, 1)]), 2),
                (one(&[(4, 1), (5, 1), (width - 6, 0)]), 2),
                (one(&[(4, 1), (5, 3)]), 3),
                (two(&[(4, 15), (5, 0), (4, 1), (5, 3)]), 3),
                (two(&[(4, 1), (5, 3), (4, 15)]), 3),
                (one(&[(4, 1), (5, 1), (width, 0)]), 4),
                (one(&[(4, 1), (5, 2), (width, 9), (width, 9)]), 5),
                (one(&[(4, 1), (5, 0), (7, 1)]), 7),
                (one(&[(4, 1), (5, 0), (7, 0), (8, 0)]), 7),
            ];
            for (fields, number) in faults {
                assert_eq!(read(&packed(&fields)), Err(number), "{fields:?}");
            }
            let deep = two(&[(4, 1), (5, 0), (4, 2), (5, 3)]);
            let cassettes = [(width, 1), (width, 2), (width, 3)];
            let store = read(&packed(&[&deep[..], &cassettes].concat())).unwrap();
            assert_eq!(store.depths, [2, 3]);
            assert_eq!(store.shafts, [vec![], vec![1, 2, 3]]);
        }
    }
}
