//! A host in Rust: each kind of answer comes over as it is in C. What the answers are is tested by
//! the C programs of `embed/tests`.

use nitpicker::{
    Client, ConfigRefusal, Delivery, Event, Glyphs, Item, Lettering, Mode, Plan, Rect, Refusal,
    SeatPlan, Server, Status, View,
};

const SEAT: SeatPlan = SeatPlan {
    donation: 65536,
    layer: 0,
    clicks: true,
};

fn opened() -> Server {
    let plan = Plan {
        width: 32,
        height: 24,
        seats: &[SEAT; 2],
        ..Plan::default()
    };
    Server::open(&plan).unwrap()
}

/// A client on each seat, beside each other, 16 by 24 each.
fn two() -> (Server, Client, Client) {
    let mut server = opened();
    let [a, b] = [("a", 0), ("b", 16)].map(|(label, x)| {
        let client = server.sit(label, 0).unwrap();
        let mut seat = server.seat(client);
        seat.buffer(16, 24).unwrap();
        let view = seat.view().unwrap();
        assert_eq!(view, View(1));
        seat.place(view, x, 0, 16, 24).unwrap();
        client
    });
    (server, a, b)
}

fn told(seat: u32, event: Event) -> Delivery {
    Delivery {
        seat,
        item: Item::Event(event),
    }
}

/// The user sees what the screen shows. Nobody reads the words.
fn shown(server: &mut Server) {
    server.look(&mut [0; 32 * 24]).unwrap();
}

#[test]
fn plans_are_refused_by_name() {
    for (width, height, bar, count) in [
        (0, 8, false, 1),
        (nitpicker::MOST_WIDTH + 1, 8, false, 1),
        (8, nitpicker::MOST_HEIGHT + 1, false, 1),
        (8, 7, true, 1),
        (8, 8, false, 0),
        (8, 8, false, nitpicker::MOST_SEATS as usize + 1),
    ] {
        let seats = vec![SEAT; count];
        let plan = Plan {
            width,
            height,
            bar,
            seats: &seats,
            ..Plan::default()
        };
        assert_eq!(Server::open(&plan).unwrap_err(), Refusal::BadPlan);
    }
}

/// A bar of large glyphs, each dot `scale` by `scale` pixels, has `9 * scale` rows, and leaves one.
#[test]
fn a_lettering_has_its_bar() {
    let opened = |glyphs, scale, height| {
        Server::open(&Plan {
            width: 1,
            height,
            bar: true,
            lettering: Lettering { glyphs, scale },
            seats: &[SEAT],
        })
        .map(|_| ())
    };
    assert_eq!(opened(Glyphs::Small, 8, 57), Ok(()));
    assert_eq!(opened(Glyphs::Small, 8, 56), Err(Refusal::BadPlan));
    assert_eq!(opened(Glyphs::Large, 2, 19), Ok(()));
    assert_eq!(opened(Glyphs::Large, 2, 18), Err(Refusal::BadPlan));
    assert_eq!(opened(Glyphs::Small, 0, 4096), Err(Refusal::BadPlan));
    assert_eq!(opened(Glyphs::Large, 9, 4096), Err(Refusal::BadPlan));
    assert_eq!(Lettering::default().scale, 1);
}

#[test]
fn configurations_are_refused_by_name() {
    let good = "[screen]\nwidth = 8\nheight = 8\n[input]\nscript = \"i\"\n[[client]]\n\
                label = \"a\"\ndonation = 256\nscript = \"s\"\n";
    let mut server = Server::open_config(good).unwrap();
    let state = server.seat_state(0).unwrap();
    assert_eq!((state.status, state.client.seat()), (Status::Live, 0));
    assert_eq!((state.client.turn(), server.label(0)), (0, "a".into()));
    server.seat(state.client).view().unwrap();
    for (text, refusal) in [
        ("[screen", ConfigRefusal::Syntax),
        ("", ConfigRefusal::Missing),
        (&good.replace("256", "255"), ConfigRefusal::Range),
        (&good.replace("\"a\"", "\"A\""), ConfigRefusal::Label),
        (&good.replace("8", "true"), ConfigRefusal::Kind),
    ] {
        let refused = Server::open_config(text).unwrap_err();
        assert_eq!(refused, Refusal::Config(refusal));
    }
    assert_eq!(Server::config_line(good), None);
    assert_eq!(Server::config_line("a = 1\n[screen"), Some(2));
}

#[test]
fn calls_are_refused_by_name() {
    let (mut server, a, b) = two();
    let mut seat = server.seat(a);
    assert_eq!(seat.buffer(0, 1), Err(Refusal::BadSize));
    assert_eq!(seat.place(View(1), 40000, 0, 1, 1), Err(Refusal::BadRect));
    assert_eq!(seat.front(View(7)), Err(Refusal::NoSuchView(7)));
    assert_eq!(seat.title(View(1), "A"), Err(Refusal::BadTitle));
    assert_eq!(seat.title(View(1), "\n"), Err(Refusal::BadText));
    assert_eq!(
        seat.refresh(0, 0, 1, 1, &[0; 383]),
        Err(Refusal::ShortWords)
    );
    let none = Refusal::NoReserve {
        need: 70000,
        left: 65536,
    };
    assert_eq!(seat.upgrade(70000), Err(none));
    assert_eq!(server.seat_state(2), None);
    assert_eq!((server.account(2), server.label(2)), (None, "".into()));
    server.seat(b).leave().unwrap();
    assert_eq!(server.seat(b).view(), Err(Refusal::Closed));
    assert_eq!(server.press(768).unwrap_err(), Refusal::BadDevice);
    assert_eq!(server.look(&mut [0; 9]), Err(Refusal::WrongFrame));
}

#[test]
fn seats_are_refused_by_name() {
    let (mut server, a, b) = two();
    assert_eq!(server.sit_on(2, "c"), Err(Refusal::NoSeat));
    assert_eq!(server.sit_on(1, "C"), Err(Refusal::BadLabel));
    assert_eq!(server.sit_on(1, "c"), Err(Refusal::SeatTaken));
    assert_eq!(server.seat_for("c", 0), Err(Refusal::NoFreeSeat));
    assert_eq!(server.sit("a", 0), Err(Refusal::LabelTaken));
    assert_eq!(server.sit("C", 9), Err(Refusal::BadLabel));
    server.seat(b).leave().unwrap();
    assert_eq!(server.sit_on(1, "a"), Err(Refusal::LabelTaken));
    assert_eq!(server.sit("b", 3), Err(Refusal::LabelTaken));
    assert_eq!(server.sit("c", 3), Err(Refusal::NoFreeSeat));
    assert_eq!(server.seat_for("b", 0), Ok(1));
    let again = server.sit("b", 0).unwrap();
    assert_eq!((again.seat(), again.turn(), a.turn()), (1, 3, 1));
    assert_eq!(again.to_string(), "client 3 of seat 1");
}

#[test]
fn a_former_client_reaches_nobody() {
    let (mut server, a, b) = two();
    server.seat(a).leave().unwrap();
    let next = server.sit("a", 0).unwrap();
    let view = server.seat(next).view().unwrap();
    let mut seat = server.seat(a);
    assert_eq!(seat.client(), a);
    let refused = [
        seat.buffer(1, 1),
        seat.view().map(|_| ()),
        seat.place(view, 1, 1, 1, 1),
        seat.offset(view, 1, 1),
        seat.front(view),
        seat.back(view),
        seat.above(view, view),
        seat.title(view, "\n"),
        seat.destroy(view),
        seat.take().map(|_| ()),
        seat.upgrade(1),
        seat.refresh(0, 0, 1, 1, &[]),
        seat.leave(),
        server.raise(a, view),
        server.lower(a, view),
    ];
    assert_eq!(refused, [Err(Refusal::OtherClient); 15]);
    assert_eq!(server.seat_state(0).unwrap().client, next);
    assert_eq!(server.views().len(), 2);
    assert_eq!(server.seat(b).view(), Ok(View(2)));
    let mut small = Server::open(&Plan {
        width: 8,
        height: 8,
        seats: &[SEAT],
        ..Plan::default()
    })
    .unwrap();
    assert_eq!(small.seat(b).view(), Err(Refusal::NoSeat));
}

#[test]
fn the_user_restacks() {
    let (mut server, a, b) = two();
    let second = server.seat(a).view().unwrap();
    let order = |server: &Server| -> Vec<_> {
        let views = server.views();
        views.iter().map(|view| (view.seat, view.view.0)).collect()
    };
    assert_eq!(order(&server), [(0, 2), (1, 1), (0, 1)]);
    server.raise(b, View(1)).unwrap();
    server.lower(a, second).unwrap();
    assert_eq!(order(&server), [(1, 1), (0, 1), (0, 2)]);
    assert_eq!(server.raise(b, View(9)), Err(Refusal::NoSuchView(9)));
    assert_eq!(server.entry(), Ok(None));
    assert_eq!(server.seat(b).take(), Ok(None));
}

#[test]
fn views_stand_and_are_gone() {
    let (mut server, a, _) = two();
    let mut seat = server.seat(a);
    let second = seat.view().unwrap();
    assert_eq!(second, View(2));
    seat.back(second).unwrap();
    seat.above(second, View(1)).unwrap();
    seat.offset(second, -1, 1).unwrap();
    seat.title(second, "two").unwrap();
    seat.destroy(second).unwrap();
    assert_eq!(seat.destroy(second), Err(Refusal::NoSuchView(2)));
}

#[test]
fn input_goes_where_the_user_sends_it() {
    let (mut server, a, _) = two();
    let motion = server.motion(3, 4).unwrap();
    assert_eq!(*motion, [told(0, Event::Motion(3, 4))]);
    shown(&mut server);
    let press = server.press(272).unwrap();
    assert_eq!(
        *press,
        [told(0, Event::FocusEnter), told(0, Event::Press(272))]
    );
    assert_eq!(server.state().focus, Some(0));
    server.release(272).unwrap();
    assert_eq!(*server.wheel(-5).unwrap(), [told(0, Event::Wheel(-5))]);
    assert_eq!(server.seat_state(0).unwrap().waiting, 5);
    let mut taken = Vec::new();
    while let Some(event) = server.seat(a).take().unwrap() {
        taken.push(event);
    }
    assert_eq!(taken.last(), Some(&Event::Wheel(-5)));
    assert_eq!(taken.len(), 5);
}

#[test]
fn a_click_goes_to_the_client_that_was_shown() {
    let (mut server, a, _) = two();
    server.motion(20, 4).unwrap();
    assert_eq!(server.press(272).unwrap_err(), Refusal::Moved);
    shown(&mut server);
    let mut seat = server.seat(a);
    let cover = seat.view().unwrap();
    seat.place(cover, 16, 0, 16, 24).unwrap();
    assert_eq!(server.press(272).unwrap_err(), Refusal::Moved);
    assert_eq!(server.state().focus, None);
    shown(&mut server);
    server.press(272).unwrap();
    assert_eq!(server.state().focus, Some(0));
    server.seat(a).destroy(cover).unwrap();
    assert_eq!(*server.press(273).unwrap(), [told(0, Event::Press(273))]);
}

#[test]
fn the_user_locks_a_client_out() {
    let (mut server, _, b) = two();
    server.motion(20, 4).unwrap();
    assert_eq!(*server.press(99).unwrap(), [told(1, Event::Leave)]);
    assert_eq!(server.state().mode, Mode::Kill);
    shown(&mut server);
    let kill = Delivery {
        seat: 1,
        item: Item::Kill,
    };
    assert_eq!(*server.press(272).unwrap(), [kill]);
    assert_eq!(server.seat(b).view(), Err(Refusal::Killed));
    assert_eq!(server.seat_state(1).unwrap().status, Status::Killed);
    assert_eq!(server.seat_for("b", 0), Ok(1));
}

#[test]
fn a_look_tells_what_changed() {
    let (mut server, _, b) = two();
    let mut frame = vec![u32::MAX; 32 * 24];
    let all = Rect {
        x: 0,
        y: 0,
        w: 32,
        h: 24,
    };
    assert_eq!(server.look(&mut frame), Ok(Some(all)));
    assert_eq!(server.look(&mut frame), Ok(None));
    let words: Vec<u32> = (0..384).collect();
    server.seat(b).refresh(2, 3, 4, 5, &words).unwrap();
    let part = Rect {
        x: 18,
        y: 3,
        w: 4,
        h: 5,
    };
    assert_eq!(server.look(&mut frame), Ok(Some(part)));
    assert_eq!(frame[3 * 32 + 18], 3 * 16 + 2);
}

#[test]
fn damage_is_copied() {
    let (mut server, _, b) = two();
    let mut surface = vec![7; 40 * 24];
    let all = Rect {
        x: 0,
        y: 0,
        w: 32,
        h: 24,
    };
    assert_eq!(*server.damage().unwrap(), [all]);
    server.copy(all, &mut surface, 40).unwrap();
    assert_eq!((surface[31], surface[32], surface[40]), (0, 7, 0));
    let words: Vec<u32> = (0..384).collect();
    server.seat(b).refresh(2, 3, 4, 5, &words).unwrap();
    let part = Rect {
        x: 18,
        y: 3,
        w: 4,
        h: 5,
    };
    let damage = server.damage().unwrap();
    assert_eq!(damage.iter().map(|part| part.w * part.h).sum::<u32>(), 20);
    server.copy(part, &mut surface[3 * 40 + 18..], 40).unwrap();
    assert_eq!(surface[3 * 40 + 18], 3 * 16 + 2);
    assert_eq!(surface[3 * 40 + 22], 0);
    assert!(server.damage().unwrap().is_empty());
    let out = Rect { w: 15, ..part };
    assert_eq!(server.copy(out, &mut surface, 40), Err(Refusal::BadRect));
    assert_eq!(server.copy(part, &mut surface, 3), Err(Refusal::WrongFrame));
}

#[test]
fn what_was_shown_stays_shown() {
    let (mut server, _, b) = two();
    assert_eq!(server.shown(20, 4), None);
    shown(&mut server);
    server.seat(b).place(View(1), 0, 0, 1, 1).unwrap();
    let view = server.shown(20, 4).unwrap();
    assert_eq!((view.seat, view.view, view.place), (1, View(1), (16, 0)));
    assert_eq!((view.size, view.offset), ((16, 24), (0, 0)));
    assert_eq!(server.owner(20, 4), None);
    assert_eq!(server.shown(32, 4), None);
}

#[test]
fn refusals_say_what_is_wrong() {
    let refusal = Refusal::OutOfQuota {
        need: 800,
        left: 744,
    };
    assert_eq!(
        refusal.to_string(),
        "too few units are left of the donation: 800 are needed and 744 are left"
    );
    assert_eq!(
        Refusal::OtherClient.to_string(),
        "the seat has another client"
    );
    assert_eq!(Item::Event(Event::Motion(3, 4)).to_string(), "motion 3 4");
    assert_eq!(
        Refusal::Config(ConfigRefusal::Twice).to_string(),
        "the configuration is refused: two clients have the same label"
    );
}
