use aat::*;

fn sample() -> Vec<u8> {
    std::fs::read(concat!(env!("CARGO_MANIFEST_DIR"), "/../../crates/aat/data/sample.ttf")).unwrap()
}

fn shaped(face: &Face<'_>, features: &[Feature], text: &str) -> GlyphBuffer {
    let mut buffer = UnicodeBuffer::new();
    buffer.push_str(text);
    shape(face, features, buffer)
}

#[test]
fn a_word_has_its_ligature_and_its_kerning() {
    let data = sample();
    let face = Face::from_slice(&data, 0).unwrap();
    let glyphs = shaped(&face, &[], "fila");
    let ids: Vec<u32> = glyphs.glyph_infos().iter().map(|info| info.glyph_id).collect();
    assert_eq!(ids, [7, 6, 3]);
    assert_eq!(glyphs.glyph_positions()[2].x_offset, -15);
    assert!(glyphs.glyph_infos()[1].unsafe_to_break() || glyphs.glyph_infos()[1].cluster == 2);
}

#[test]
fn a_feature_is_read_of_its_text() {
    let feature: Feature = "-liga".parse().unwrap();
    assert_eq!(feature, Feature::new(Tag::from_bytes(b"liga"), 0, ..));
    assert_eq!("liga!".parse::<Feature>(), Err(Error::BadFeature));
    let data = sample();
    let face = Face::from_slice(&data, 0).unwrap();
    assert_eq!(shaped(&face, &[feature], "fila").len(), 4);
    assert!(face.has_feature(Tag::from_bytes(b"smcp")));
}

#[test]
fn a_buffer_is_used_again() {
    let data = sample();
    let face = Face::from_slice(&data, 0).unwrap();
    let mut buffer = shaped(&face, &[], "fila fa-la").clear();
    assert!(buffer.is_empty());
    buffer.add('f', 7);
    buffer.add('a', 9);
    let glyphs = shape(&face, &[], buffer);
    let clusters: Vec<u32> = glyphs.glyph_infos().iter().map(|info| info.cluster).collect();
    assert_eq!(clusters, [7, 9]);
}

#[test]
fn lines_end_at_words() {
    let data = sample();
    let face = Face::from_slice(&data, 0).unwrap();
    let mut buffer = UnicodeBuffer::new();
    buffer.push_str("fila fa-la");
    let lines = lines(&face, &[], 1, buffer).unwrap();
    let texts: Vec<_> = lines.iter().map(|line| line.text).collect();
    assert_eq!(texts, [0..5, 5..8, 8..10]);
}

#[test]
fn what_is_no_font_is_refused() {
    assert!(Face::from_slice(b"abc", 0).is_none());
    assert_eq!(Face::read(b"abc", 0).err(), Some(Error::BadFont));
    assert_eq!(Error::BadFont.to_string(), "the directory of the font file has a fault");
}

#[test]
fn a_face_moves_to_another_thread() {
    let data = sample();
    std::thread::scope(|scope| {
        let face = Face::from_slice(&data, 0).unwrap();
        let count = scope.spawn(move || shaped(&face, &[], "fila").len()).join().unwrap();
        assert_eq!(count, 3);
    });
}
