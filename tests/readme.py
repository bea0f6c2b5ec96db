#!/usr/bin/env python3
"""Makes programs of the lines that README shows in C, Rust and Python, with the command and the dependency that it names. Each turns a block of 64 by 16 words
that hold their own offsets, and ends well only where every word stands where the turn puts it.
Usage: readme.py README FOLDER
"""
import pathlib
import re
import sys

text, folder = pathlib.Path(sys.argv[1]).read_text(), pathlib.Path(sys.argv[2])


def shown(language):
    return re.search(rf"^```{language}\n(.*?)^```$", text, re.M | re.S)[1]


def named(beginning):
    return re.search(rf"`({re.escape(beginning)}[^`]*)`", text)[1] + "\n"


(folder / "src").mkdir(parents=True, exist_ok=True)
(folder / "command").write_text(named("cc program.c"))
(folder / "program.c").write_text(f"""#include <stdio.h>
#include <zibsnarda.h>
int main(void)
{{
static uint32_t block[64 * 16];
for (uint32_t k = 0; k < 64 * 16; k++) block[k] = k;
{shown("c")}
for (uint32_t k = 0; k < 64 * 16; k++)
    if (block[k] != k % 64 * 16 + k / 64) return 1;
return number != ZIB_ACCEPTED;
}}
""")
(folder / "Cargo.toml").write_text('[package]\nname = "readme"\nversion = "0.1.0"\nedition = "2021"\n\n[dependencies]\n' + named("zibsnarda = {") + "\n[workspace]\n")
(folder / "src/main.rs").write_text(f"""fn main() -> Result<(), Box<dyn std::error::Error>> {{
    let mut block: Vec<u32> = (0..64 * 16).collect();
    let mut scratch = [0; 64];
    {shown("rust")}
    assert!(block.iter().enumerate().all(|(k, &word)| word as usize == k % 64 * 16 + k / 64));
    Ok(())
}}
""")
(folder / "program.py").write_text(f"""import numpy
import zibsnarda
numpy.arange(64 * 16, dtype="uint32").tofile("recorded.words")
{shown("python")}
assert (block.reshape(16, 64).T.ravel() == numpy.arange(64 * 16)).all()
""")
