//! The types' own habits.
use std::error::Error;
use wesalondo::*;

#[test]
fn refusals_and_their_numbers() {
    let mut known = vec![];
    for number in 0..100 {
        match Refusal::try_from(number) {
            Ok(refusal) => {
                assert_eq!(refusal.number(), number);
                assert!(refusal.to_string().starts_with(&format!("refusal {number}: ")));
                known.push(number);
            }
            Err(unknown) => assert_eq!(unknown, UnknownNumber(number)),
        }
    }
    assert_eq!(known, [1, 2, 3, 4, 5, 6, 8, 9, 10, 11, 12]);
    assert!(UnknownNumber(7).to_string().starts_with("7 is "));
    let boxed: Box<dyn Error + Send + Sync> = Box::new(Refusal::TooFew);
    assert!(boxed.to_string().contains("fewer than 2 marks"));
}

#[test]
fn faults_in_words() {
    let fault = Fault { kind: FaultKind::D, curve: 3, mark: 17 };
    assert_eq!(fault.to_string(), "fault D at curve 3, mark 17: the mark is farther off than the tolerance");
    assert_eq!(Verdict::Faulty(fault).fault(), Some(fault));
    assert!(Verdict::Sound.is_sound() && !Verdict::Faulty(fault).is_sound());
    let _: Box<dyn Error> = Box::new(fault);
}

#[test]
fn points_and_curves_of_other_kinds() {
    let point = Point { x: 1.0, y: 2.0 };
    assert_eq!((Point::from([1.0, 2.0]), Point::from((1.0, 2.0))), (point, point));
    assert_eq!((<[f64; 2]>::from(point), <(f64, f64)>::from(point)), ([1.0, 2.0], (1.0, 2.0)));
    let numbers = [1.0, 2.0, 3.0, 4.0, 5.0, 6.0, 7.0, 8.0];
    let curve = Curve::from(numbers);
    assert_eq!((curve.start, curve.cp1, curve.cp2, curve.end), (point, (3.0, 4.0).into(), (5.0, 6.0).into(), (7.0, 8.0).into()));
    assert_eq!(<[f64; 8]>::from(curve), numbers);
    assert_eq!(Curve::from(<[Point; 4]>::from(curve)), curve);
    assert_eq!((Point::default(), Curve::default()), (Point::new(0.0, 0.0), Curve::from([0.0; 8])));
}

#[test]
fn fits_go_between_threads() {
    fn goes<T: Send + Sync>() {}
    goes::<Fit>();
    goes::<House>();
    goes::<List<'_>>();
    goes::<Path>();
    goes::<Refusal>();
    goes::<Salvaged>();
}
