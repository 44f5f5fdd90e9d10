//! A file, a snapshot, a change on another thread, and both texts; then the image is taken, and opened again.

#[allow(dead_code)]
mod nlvol;

use nlvol::{Refused, Volume};
use std::thread;

fn show(volume: &mut Volume, at: u64) -> Result<(), Refused> {
    let text = volume.read_all(at, b"/notes")?;
    println!("{at}: {}", String::from_utf8_lossy(&text));
    Ok(())
}

fn main() -> Result<(), Refused> {
    let mut volume = Volume::format(64, 64, 0)?;
    volume.create(b"/notes")?;
    volume.write(b"/notes", 0, b"first draft")?;
    let first = volume.mkcp(true, 60)?;

    let writer = thread::spawn(move || -> Result<Volume, Refused> {
        volume.truncate(b"/notes", 0)?;
        volume.write(b"/notes", 0, b"final")?;
        Ok(volume)
    });
    let mut volume = writer.join().expect("the writer ends")?;
    show(&mut volume, first)?;
    show(&mut volume, 0)?;
    println!("{:?}", volume.mkdir(b"/notes/x"));

    volume.sync(120)?;
    let image = volume.image()?;
    drop(volume);
    let mut volume = Volume::open(&image)?;
    for row in volume.checkpoints()? {
        println!("checkpoint {} of {}", row.number, row.moment);
    }
    println!("{}", Volume::open(&image[1..]).err().expect("these are no image"));
    Ok(())
}
