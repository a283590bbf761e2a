//! tests/library.rs: what tests/run-library asks of monitors by library/evc.rs.
#[path = "../library/evc.rs"]
mod evc;

const HISTORY: &str = "evc-calls 1\nlimit 100\nworkers a b\neventcount E signal a b observe a b\nrun\n\
    a calls advance E\na returns done\nb calls read E\nb returns 1\nend\n";

/// Gives a monitor each line, up to the first that it rejects.
fn lines(monitor: &mut evc::Monitor, text: &str) -> Result<(), evc::Fault> {
    text.lines().try_for_each(|line| monitor.line(line.as_bytes()))
}

#[test]
fn histories_are_counted() {
    let mut monitor = evc::Monitor::new().unwrap();
    lines(&mut monitor, HISTORY).unwrap();
    lines(&mut monitor, HISTORY).unwrap();
    let load = monitor.end().unwrap();
    assert_eq!(load, evc::Load { histories: 2, calls: 4, others: 0 });
    assert_eq!(monitor.load(), load);
}

#[test]
fn a_fault_stays() {
    let mut monitor = evc::Monitor::new().unwrap();
    let fault = lines(&mut monitor, &HISTORY.replace("returns 1", "returns 0")).unwrap_err();
    assert!(fault.to_string().starts_with("line 9: returned 0, but "), "{fault}");
    assert_eq!(monitor.line(b"end").unwrap_err(), fault);
    assert_eq!(monitor.end().unwrap_err(), fault);
}

#[test]
fn a_text_ends_after_a_history() {
    let mut monitor = evc::Monitor::new().unwrap();
    let fault = monitor.end().unwrap_err();
    assert!(matches!(fault, evc::Fault::Refused(_)), "{fault}");
}

#[test]
#[should_panic(expected = "a line after the end")]
fn no_line_comes_after_the_end() {
    let mut monitor = evc::Monitor::new().unwrap();
    lines(&mut monitor, HISTORY).unwrap();
    monitor.end().unwrap();
    let _ = monitor.line(b"evc-calls 1");
}

#[test]
fn a_monitor_goes_to_another_thread() {
    let mut monitor = evc::Monitor::new().unwrap();
    let judged = std::thread::spawn(move || {
        lines(&mut monitor, HISTORY).and_then(|()| monitor.end())
    });
    assert!(judged.join().unwrap().is_ok());
}
