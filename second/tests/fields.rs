//! Field contents: document 01's examples, the open points decided, and the sources' prints.

use second::{field_fits, spelling19};

fn all(form: &str, due: bool, contents: &[&str]) {
    for content in contents {
        assert_eq!(field_fits(form, content.as_bytes()), due, "{form} {content:?}");
    }
}

fn fit(form: &str, contents: &[&str]) {
    all(form, true, contents);
}

fn do_not_fit(form: &str, contents: &[&str]) {
    all(form, false, contents);
    // Nor does anything that is empty, led by a space or followed by one.
    all(form, false, &["", " ", "-", "("]);
}

#[test]
fn field_3() {
    fit("3", &["FPL", "CNL", "CHGA/B234A/B231", "CHGO/B016O/B014", "SPLABCD/EFGH123"]);
    fit("3", &["ALR", "RCF", "CPL", "CPLA/B002", "EST", "CDN", "ACP", "LAMP/M178M/P100"]);
    do_not_fit("3", &["XXX", "CNLX", "CNL A/B123", "CNLA/B123 A/B124", "CNLA/BCDEF123", "CNLA/B1234"]);
    do_not_fit("3", &["CNLABCDE/B123", "CNL/B123", "CNLA/123", "CNLA/B12", "CNLA/B123C/D456E/F789", "CN", "cnl"]);
}

#[test]
fn field_7() {
    fit("7", &["ABC12/A7777", "BAW902", "SAS912/A5100", "5A5912/A5100", "4XBCD", "N2567GA", "OO", "FOX236/A3624"]);
    do_not_fit("7", &["ABC12/A7780", "NIGERIA213", "HERBIE25", "SABENA OOTEK", "A", "ABC12/A777", "ABC12/A77777"]);
    do_not_fit("7", &["ABC12/B7777", "ABC12/", "ABC12/A777/", "/A7777", "ABC12 ", "ABC.2"]);
}

#[test]
fn field_8() {
    fit("8", &["V", "IS", "IN", "I", "IM", "YG", "ZX"]);
    do_not_fit("8", &["S", "SI", "ISS", "I S", "IA", "i"]);
}

#[test]
fn field_9() {
    fit("9", &["2FK27/M", "DC3/M", "B707/M", "ZZZZ/L", "3ZZZZ/L", "B747/H", "2F70/M", "99AB/L", "10AB/L"]);
    do_not_fit("9", &["1B707/M", "02B738/M", "100B738/M", "0B738/M", "B773H", "HS 21/M", "A/M", "ABCDE/M", "B738/S"]);
    do_not_fit("9", &["B738/", "B738/MM", "B738/M/", "22/M", "/M", "2/M", "B73?/M"]);
}

#[test]
fn field_10() {
    fit("10", &["S/A", "SCI/CB1", "SAFR/SV1", "ADE3RV/HB2U2V2G1", "CHOV/C", "SDFG/S", "N/N", "N/S", "S/N", "E1E2E3/C"]);
    do_not_fit(
        "10",
        &["S/CD", "CHOPV/CD", "E/C", "E1E1/C", "SS/C", "S/CC", "NS/C", "SN/C", "S/NC", "E4/C", "S1/C", "S"],
    );
    do_not_fit(
        "10",
        &["/C", "S/", "S/B3", "S/B", "S/C/C", "S C/C", "J0/C", "J8/C", "P/C", "S/G2", "Q/C", "Ss/C", "S0/C"],
    );
    let every = "ABCDE1E2E3FGHIJ1J2J3J4J5J6J7KLM1M2M3OP1P2P3P4P5P6P7P8P9RSTUVWXYZ";
    assert_eq!(every.len(), 64);
    // Twenty bytes right of the oblique fit, twenty-one do not.
    fit("10", &[&format!("{every}/ACEHILB1B2U1U2V1V2D1")]);
    do_not_fit("10", &[&format!("{every}/ACEHILPB1B2U1U2V1V2D1"), &format!("{every}A/C")]);
}

#[test]
fn field_13() {
    fit("13", &["EHAM0730", "AFIL1625", "UKBB2359", "ZZZZ0000"]);
    do_not_fit("13", &["EHAM2400", "EHAM2460", "EHAM0060", "EHAM", "EHAM 0730", "EHA10730", "EHAM073", "EHAM07300"]);
    fit("13open", &["EHRD", "EHAM0730"]);
    do_not_fit("13open", &["EHAM2400", "EHR", "EHAM073", "EHAM 0730", "EHRD1"]);
}

#[test]
fn field_15_words() {
    let words = |list: &[&str]| list.iter().map(|word| format!("N0440F310 {word}")).collect::<Vec<_>>();
    let good = words(&[
        "46N078W",
        "9000N18000E",
        "9000S18000W",
        "90N180E",
        "8959N17959E",
        "FOJ180040",
        "4620N07805W",
        "BUD360999",
        "DCT180040",
        "12345678",
        "ABCDE000000",
        "MN",
        "KODAP2A",
        "46N078X",
        "614",
        "DCT",
        "VFR",
        "IFR",
        "T",
        "DCT T",
        "LN/K0284A045",
        "4602N07805W/N0500F350",
        "46N078W/M082F330",
        "DUB180040/N0350M0840",
        "LN VFR",
        "BUG OAT",
        "C/48N050W/M082F290F350",
        "C/48N050W/M082F290PLUS",
        "C/52N050W/M220F580F620",
        "C/LN/K0284S1130M0840",
        "NORAH/N0350F110 GAT",
        "9000N17959E",
        "8959N18000E",
        "PLUS",
        "C1",
        "TT",
        "1A12345",
    ]);
    let bad = words(&[
        "91N078W",
        "9001N07805W",
        "FOJ361040",
        "9000N18001E",
        "46N181W",
        "4660N07805W",
        "4620N07860W",
        "4620N18100W",
        "C/48N050W/MO82F290PLUS",
        "SVR STAY1/0030 SVR",
        "BUG/N0430F250BF280",
        "50N040W49N050W",
        "T DCT",
        "T T",
        "A",
        "KODAP2A/N0440F310",
        "C/48N050W/M082F290",
        "DCT/N0440F310",
        "C/IFR/N0440F310PLUS",
        "LN/N0440VFR",
        "T/N0440F310",
        "C/LN/N0440VFRPLUS",
        "C/LN/N0440F310VFR",
        "LN/N0440F310/",
        "ABCDEFGH",
        "N0420F310",
        "A.",
        "LN/",
        "/N0440F310",
        "A180040A",
        "ABCDEF180040",
        "C/T/N0440F310PLUS",
        "ABCDEF/N0440F310",
        "91N078W/N0440F310",
        "C/C/N0440F310PLUS",
        "LN/N0440",
        "C/LN/N0440F310PLUSS",
    ]);
    good.iter().for_each(|content| fit("15", &[content]));
    bad.iter().for_each(|content| do_not_fit("15", &[content]));
}

#[test]
fn field_15() {
    fit("15", &["K0410S1500 A4 CCV R11", "K0290A120 BR 614", "M082F310 BCN1G BCN UG1 52N015W DCT YQX", "N0120VFR DCT"]);
    fit("15", &["N0460F290 LEK2B LEK UA6 FNE UA6 XMM/M078F330 UA6N PON UR10N CHW UA5 NTS DCT 4611N00412W DCT STG UA5 FTM FATIM1A"]);
    do_not_fit(
        "15",
        &["N0460F290 LEK2B LEK UA6 FNE UA6 XMM/MO78F330 UA6N PON", "N0430F220", "K 0830F290 DCT", "N0440 DCT"],
    );
    do_not_fit(
        "15",
        &[
            "N044F310 DCT",
            "N0440F31 DCT",
            "N0440F310  DCT",
            "N0440F310 DCT ",
            "N0440F310 DCT UL984...",
            "M0820F310 DCT",
        ],
    );
    do_not_fit("15", &["N0440VFRX DCT", "N0440F310VFR DCT", "S0440F310 DCT", "VFR DCT", " N0440F310 DCT"]);
}

#[test]
fn fields_16_and_17() {
    fit("16", &["EDDF", "ZZZZ"]);
    do_not_fit("16", &["EDDF0100", "EDDF EDDK", "EDD", "EDDFX", "EDD1"]);
    fit(
        "16plan",
        &[
            "EINN0630",
            "EHAM0645 EBBR",
            "EHAM0645 EBBR EDDL",
            "EKCH0400 EKVB",
            "ZZZZ2359 ZZZZ ZZZZ",
            "EHAM2600",
            "EHAM9959",
        ],
    );
    do_not_fit(
        "16plan",
        &["CYQX0455 CYR", "EHAM", "EHAM0645 EBBR EDDL EDDK", "EHAM2460", "EHAM0645EBBR", "EHAM0645 EBBR0100"],
    );
    fit("17", &["EHAM1433", "ZZZZ1620 DEN HELDER", "ZZZZ1620 SOBKIVKA", "ZZZZ1620 ?", "ZZZZ1620 A B C."]);
    do_not_fit(
        "17",
        &["EHAM 1433", "ZZZZ1620", "EHAM1433 X", "ZZZZ2400 X", "ZZZZ1620 A/B", "ZZZZ1620 X ", "EHAM", "ZZZZ"],
    );
}

#[test]
fn field_18() {
    fit(
        "18",
        &["0", "DOF/240229", "DOF/000229", "STS/MEDEVAC", "EET/015W0315 020W0337 030W0420 040W0502", "NAV/GBAS SBAS"],
    );
    fit(
        "18",
        &["TYP/2F15 5F5 3B2", "TYP/2F15, 5F5, 3B2", "CODE/F00001", "CODE/A10001", "DLE/MDG0030", "RIF/DTA HEC KLAX"],
    );
    fit(
        "18",
        &[
            "DOF/941223",
            "REG/HAVAS, HASJR",
            "STS/HOSP HOSP",
            "PBN/A1B1B2C1C2D1D2L1",
            "EET/0000000000",
            "RMK/STS HOSP 0",
        ],
    );
    fit(
        "18",
        &["REG/A43213 EET/LYBE0020 EDM0133 OPR/USAF RMK/NO POSITION REPORT SINCE DEP PLUS 2 MINUTES", "SEL/FJEL RMK/X"],
    );
    do_not_fit(
        "18",
        &["DOF/230229", "RMK/A STS/HOSP", "EET/LYBA0040 LHCC0 150 LOVV0215", "STS/ONE ENG INOP", "STS/NONRVS"],
    );
    do_not_fit(
        "18",
        &["EUR/PROTECTED", "REG/FBVGA SEL/EJFL EET/LPCC0158", "EET/UKLV0030 SEL/FJEL DOF/200607", "RMK/X A/C"],
    );
    do_not_fit(
        "18",
        &["RMK/A/B", "RMK/ X", "RMK/", "X RMK/Y", "0 RMK/Y", "RMK/X RMK/Y", "00", "0 ", "rmk/X", "RMK/x", "RMK/X  Y"],
    );
    do_not_fit(
        "18",
        &["PBN/A1A1", "PBN/A1B1B2C1C2D1D2L1S1", "PBN/A", "PBN/A2", "PBN/A1 B1", "DOF/240229 X", "DOF/24022"],
    );
    do_not_fit(
        "18",
        &["DOF/240230", "DOF/241301", "DOF/240001", "DOF/240100", "DOF/240431", "SEL/FJE", "SEL/FJELX", "SEL/FJE1"],
    );
    do_not_fit(
        "18",
        &["CODE/F0000G", "CODE/F0000", "EET/A0100", "EET/ABCDEFGHIJKL0100", "EET/AB2460", "EET/AB.0100", "/X", "STS/X"],
    );
    do_not_fit("18", &["REG/A SEL/FJEL MORE", "STS/HOSP X", "DLE/AB", "RMK"]);
}

#[test]
fn field_19() {
    let same = [
        "E/0745 P/6 R/VE S/M J/L D/2 8 C YELLOW A/YELLOW RED TAIL N145E C/SMITH",
        "E/0640 P/9 R/V J/L A/BLUE C/DENKE",
        "E/0345 P/300 R/UVE S/M J/LF D/11 330 C YELLOW A/WHITE C/DENKE",
        "D/2 8 C RED BLUE",
        "D/C",
        "D/RED",
        "D/2 8",
        "D/C RED",
        "D/2 8 C/SMITH",
        "N/C 1 2",
        "P/0",
        "J/L UV",
        "D/CC",
        "D/2 8 RED",
        "A/C N/C C/C",
        "E/2359",
        "E/9959",
    ];
    for content in same {
        assert_eq!(spelling19(content.as_bytes()).as_deref(), Some(content.as_bytes()), "{content}");
    }
    let rewritten = [
        (
            "E/0720 P/12 R/UV J/LF D/02 014 C ORANGE A/SILVER C/SIMAK",
            "E/0720 P/12 R/UV J/LF D/2 14 C ORANGE A/SILVER C/SIMAK",
        ),
        ("E/0100 P/007 R/EU S/JP J/FL VU D/02 014 C RED BLUE", "E/0100 P/7 R/UE S/PJ J/LF UV D/2 14 C RED BLUE"),
        ("P/000 D/00 000", "P/0 D/0 0"),
        ("R/EVU S/JMDP", "R/UVE S/PDMJ"),
    ];
    for (sent, canonical) in rewritten {
        assert_eq!(spelling19(sent.as_bytes()).as_deref(), Some(canonical.as_bytes()), "{sent}");
    }
    do_not_fit(
        "19",
        &["E/0640 P/9 R/V JIL A/BLUE C/DENKE", "D/2", "D/2 C", "D/RED C", "D/2 8 C C", "D/C/SMITH", "D/2 8 R"],
    );
    do_not_fit(
        "19",
        &[
            "J/UV",
            "J/L U V",
            "J/ L",
            "J/L  U",
            "R/UU",
            "R/",
            "R/X",
            "P/",
            "P/1234",
            "P/1A",
            "E/2460",
            "E/100",
            "P/9 E/0640",
        ],
    );
    do_not_fit(
        "19",
        &["C/X C/Y", "A/", "A/X ", "A/X/Y", "X", "0", "B/X", "D/222 8", "D/2 8888", "D/", "E/0640 X", "P/9 9", "EP/9"],
    );
    do_not_fit("19", &["R/U V", "S/P D", "D/8 C 2", "D/R2D", "A/x", "E/0640P/9", "J/LFU", "J/L X", "J/L UU"]);
}

#[test]
fn no_such_form() {
    assert!(!field_fits("22", b"8/IN") && !field_fits("", b"0") && !field_fits("13OPEN", b"EHAM"));
}
