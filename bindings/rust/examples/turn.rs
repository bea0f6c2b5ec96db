// Turns a block of 64 frames by 16 cameras, so that each camera's frames stand together.
const FRAMES: usize = 64;
const CAMERAS: usize = 16;

fn main() -> Result<(), zibsnarda::Refused> {
    let mut block: Vec<u32> = (0..FRAMES * CAMERAS).map(|at| (100 * (at % CAMERAS) + at / CAMERAS) as u32).collect();
    let mut scratch = [0; FRAMES]; // as many words as the longer side
    zibsnarda::turn(&mut block, &mut scratch, FRAMES, CAMERAS)?;
    for (camera, frames) in block.chunks(FRAMES).enumerate() {
        println!("camera {}: {} to {}", camera, frames[0], frames[FRAMES - 1]);
    }
    Ok(())
}
