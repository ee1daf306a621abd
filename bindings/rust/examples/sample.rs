use itzahuemo::{judge, multiplex, Event, Extractor, Kind, Refusal, Settings, Verdict};

fn main() -> Result<(), Refusal> {
    let settings = Settings::new(66, 3, 10, 1024)?;
    let space = [0x00, 0x05, 0xC0, 0x00, 0x00, 0x01, 0xAA, 0xBB];
    let encapsulation = [0xE9, 0x05, 0x11, 0x22, 0x33];
    let frames = multiplex(settings, [&space[..], &encapsulation[..]])?;
    assert_eq!(frames[0][8..], [0, 5, 0xC0, 0, 0, 1, 0xAA, 0xBB, 0xE9, 0x05]);
    assert_eq!(frames[1][8..], [0x11, 0x22, 0x33, 0xE1, 7, 0x55, 0x55, 0x55, 0x55, 0x55]);

    let mut packets = Vec::new();
    let mut extractor = Extractor::new(settings);
    for frame in &frames {
        for event in extractor.feed(frame)? {
            match event {
                Event::Entered(entered) => println!(
                    "frame {} lost {} dropped {} reason {}",
                    entered.count,
                    entered.lost,
                    entered.dropped,
                    entered.reason.number()
                ),
                Event::Damaged(damage) => println!("damaged {}", damage.number()),
                Event::Packet(packet) => {
                    let total = packet.header.total;
                    match packet.header.kind {
                        _ if packet.header.idle => println!("idle {total}"),
                        Kind::Space { apid } => println!("space {apid} {total}"),
                        Kind::Encapsulation { protocol } => println!("encap {protocol} {total}"),
                    }
                    packets.push(packet.octets);
                }
            }
        }
    }
    assert_eq!(packets[..2], [&space[..], &encapsulation[..]]);

    match judge(settings, &frames)? {
        Verdict::Pass => println!("pass"),
        Verdict::Fault(index) => panic!("fault {index}"),
    }
    Ok(())
}
