//! The codes that a style of anstyle is as a text are those that the library writes for it; and each name that programs may use of that
//! crate is there, for constants too. All of it holds over anstyle 1.0.8 and 1.0.14.

use std::fmt::{Debug, Display};
use std::hash::Hash;
use yazgult::renderer::{Ansi256Color, AnsiColor, Color, EffectIter, Effects, Reset, RgbColor, Style};
use yazgult::{Group, Level, Renderer};

/// Each effect, each colour of the theme as text and as background, and some others.
fn styles() -> Vec<Style> {
    let all = Effects::BOLD | Effects::DIMMED | Effects::ITALIC | Effects::UNDERLINE | Effects::BLINK | Effects::INVERT;
    let all = all | Effects::HIDDEN | Effects::STRIKETHROUGH;
    let mut styles: Vec<Style> = all.iter().map(Style::from).collect();
    for index in 0..16 {
        let color = Ansi256Color(index).into_ansi().expect("one of the sixteen");
        styles.extend([color.on_default(), AnsiColor::Red.on(color), Color::from(index).on(color)]);
    }
    styles.extend([
        RgbColor(1, 20, 255).on((3, 2, 1)),
        Style::new() | all,
        AnsiColor::Green.on_default() | Effects::BOLD,
    ]);
    styles
}

/// Codes, in which a number below ten has one digit: anstyle 1.0.8 writes a zero before it.
fn without_zeros(codes: &str) -> String {
    (0..10).fold(codes.to_owned(), |text, digit| text.replace(&format!(";0{digit}"), &format!(";{digit}")))
}

#[test]
fn codes_are_those_that_are_drawn() {
    let report = &[Group::with_title(Level::ERROR.secondary_title("t"))];
    for style in styles() {
        let text = Renderer::plain().error(style).render(report);
        assert_eq!(text, without_zeros(&format!("{style}error{style:#}: t")), "{style:?}");
    }
}

#[test]
fn all_underlines_are_drawn_as_one_kind() {
    let kinds = [
        Effects::DOUBLE_UNDERLINE,
        Effects::CURLY_UNDERLINE,
        Effects::DOTTED_UNDERLINE,
        Effects::DASHED_UNDERLINE,
        Effects::UNDERLINE | Effects::CURLY_UNDERLINE,
    ];
    let report = &[Group::with_title(Level::ERROR.secondary_title("t"))];
    for kind in kinds {
        let style = Style::new().effects(kind).underline_color(Some(AnsiColor::Red.into())).bold();
        assert_eq!(Renderer::plain().error(style).render(report), "\x1b[1m\x1b[4merror\x1b[0m: t", "{kind:?}");
    }
}

#[test]
fn codes_of_some_styles() {
    let style = AnsiColor::BrightRed.on(Ansi256Color(5)).effects(Effects::BOLD | Effects::UNDERLINE);
    assert_eq!(without_zeros(&style.to_string()), "\x1b[1m\x1b[4m\x1b[91m\x1b[48;5;5m");
    assert_eq!(without_zeros(&RgbColor(1, 2, 3).render_fg().to_string()), "\x1b[38;2;1;2;3m");
    assert_eq!(AnsiColor::Black.render_bg().to_string(), "\x1b[40m");
    assert_eq!((format!("{:#}", Style::new()), format!("{}", Style::new())), (String::new(), String::new()));
    assert_eq!(Reset.to_string(), "\x1b[0m");
    let curly = Style::new().effects(Effects::CURLY_UNDERLINE).underline_color(Some(AnsiColor::Red.into()));
    assert_eq!(without_zeros(&curly.to_string()), "\x1b[4:3m\x1b[58;5;1m");
}

#[test]
fn styles_are_of_the_crate_anstyle() {
    const ERROR: anstyle::Style = yazgult::renderer::DEFAULT_ERROR_STYLE;
    assert_eq!(ERROR, anstyle::AnsiColor::BrightRed.on_default() | anstyle::Effects::BOLD);
}

#[test]
fn effects_are_sets() {
    let both = Effects::BOLD | Effects::BLINK;
    assert_eq!(both - Effects::BOLD, Effects::BLINK);
    assert_eq!(both.set(Effects::BLINK, false).set(Effects::ITALIC, true), Effects::BOLD | Effects::ITALIC);
    assert_eq!(format!("{both:?} {:?}", both.clear()), "Effects(BOLD | BLINK) Effects()");
    assert!(Style::new().bold().blink() == both);
}

#[test]
fn colors_have_their_bright_forms() {
    assert_eq!(AnsiColor::Red.bright(true), AnsiColor::BrightRed);
    assert_eq!(AnsiColor::BrightRed.bright(false), AnsiColor::Red);
    assert!(AnsiColor::BrightBlack.is_bright() && !AnsiColor::White.is_bright());
    assert_eq!(Ansi256Color::from(AnsiColor::BrightWhite).index(), 15);
}

/// What may be asked of a value in a constant.
const STYLE: Style = Color::Ansi(AnsiColor::Red)
    .on_default()
    .fg_color(Some(Color::Ansi256(Ansi256Color(3))))
    .bg_color(Some(Color::Rgb(RgbColor(1, 2, 3))))
    .underline_color(None)
    .effects(Effects::new().insert(Effects::BOLD).remove(Effects::DIMMED).set(Effects::ITALIC, true))
    .bold()
    .dimmed()
    .italic()
    .underline()
    .blink()
    .invert()
    .hidden()
    .strikethrough();
const COLORS: (Option<Color>, Option<Color>, Option<Color>) =
    (STYLE.get_fg_color(), STYLE.get_bg_color(), STYLE.get_underline_color());
const ANSWERS: [bool; 4] = [
    STYLE.is_plain(),
    STYLE.get_effects().is_plain(),
    STYLE.get_effects().contains(Effects::BLINK),
    Effects::BOLD.clear().is_plain(),
];
const STYLES: [Style; 3] =
    [AnsiColor::Red.on_default(), Ansi256Color(3).on_default(), RgbColor(RgbColor(7, 8, 9).r(), 8, 9).on_default()];
const INDEX: (u8, Option<AnsiColor>, Ansi256Color, u8, u8) = (
    Ansi256Color(3).index(),
    Ansi256Color(16).into_ansi(),
    Ansi256Color::from_ansi(AnsiColor::Blue),
    RgbColor(7, 8, 9).g(),
    RgbColor(7, 8, 9).b(),
);

#[test]
fn values_may_be_asked_for_in_constants() {
    assert_eq!(COLORS, (Some(Color::from(3)), Some(Color::from((1, 2, 3))), None));
    assert_eq!(ANSWERS, [false, false, true, true]);
    let colors = [Color::from(AnsiColor::Red), Color::from(3), Color::from((7, 8, 9))];
    assert_eq!(STYLES, colors.map(Color::on_default));
    assert_eq!(INDEX, (3, None, Ansi256Color(4), 8, 9));
}

/// A text that may be copied, as codes are.
fn text(codes: impl Display + Copy) -> String {
    let copied = codes;
    format!("{codes}{copied}")
}

#[test]
fn codes_may_be_copied_and_written() {
    let codes = [
        text(AnsiColor::Red.render_fg()) + &text(AnsiColor::Red.render_bg()),
        text(Ansi256Color(3).render_fg()) + &text(Ansi256Color(3).render_bg()),
        text(RgbColor(1, 2, 3).render_fg()) + &text(RgbColor(1, 2, 3).render_bg()),
        text(Color::Ansi(AnsiColor::Red).render_fg()) + &text(Color::Ansi(AnsiColor::Red).render_bg()),
        text(Effects::BOLD.render()) + &text(Reset.render()),
        text(STYLE.render()) + &text(STYLE.render_reset()),
    ];
    assert!(codes.iter().all(|it| it.starts_with("\x1b[") && it.ends_with('m')), "{codes:?}");
    let mut written = Vec::new();
    STYLE.write_to(&mut written).expect("a list takes all");
    STYLE.write_reset_to(&mut written).expect("a list takes all");
    assert_eq!(written, format!("{STYLE}{STYLE:#}").into_bytes());
}

#[test]
fn types_have_the_traits_of_values() {
    fn is_value<T: Copy + Ord + Hash + Debug + Send + Sync + 'static>() {}
    fn is_whole<T: Default + Display>() {}
    is_value::<Style>();
    is_value::<Color>();
    is_value::<AnsiColor>();
    is_value::<Ansi256Color>();
    is_value::<RgbColor>();
    is_value::<Effects>();
    is_value::<Reset>();
    is_whole::<Style>();
    is_whole::<Reset>();
    let each: EffectIter = Effects::default().iter();
    assert_eq!(each.clone(), each);
    let mut style = Color::from(AnsiColor::Red).on_default() | Effects::BOLD | Effects::BLINK;
    style |= Effects::ITALIC;
    style -= Effects::BLINK;
    assert_eq!(style - Effects::ITALIC, AnsiColor::Red.on_default().bold());
    let mut effects = Effects::BOLD;
    effects |= Effects::ITALIC;
    effects -= Effects::BOLD;
    assert_eq!(effects, Effects::ITALIC);
}
