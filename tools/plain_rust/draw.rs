//! Draws draw lists: `draw LISTS TIMES` prints how long each picture took, and with TIMES 0 writes the pictures.
use depth_raster::Raster;
use draw_list::{DrawList, Item, Tint};
use fx_math::{Affine, Lens, Vec3};
use kit::{Global, OneThread};
use pf_model::{Euler, Geom, Pose, Tri, View, box_of_tris, squared_distance};
use ppm_out::{Image, append_ppm};
use std::collections::HashMap;
use std::io::Write;
use std::str::SplitAsciiWhitespace;
use std::time::Duration;

/// Words of a text, one after the other.
struct Words<'a>(SplitAsciiWhitespace<'a>);

impl<'a> Words<'a> {
    fn word(&mut self) -> Option<&'a str> {
        self.0.next()
    }

    fn number<N: TryFrom<i64>>(&mut self) -> N {
        let number = self.word().and_then(|word| word.parse().ok());
        number.and_then(|n: i64| N::try_from(n).ok()).expect("a number in its range")
    }

    fn numbers<const N: usize>(&mut self) -> [i32; N] {
        std::array::from_fn(|_| self.number())
    }

    fn point(&mut self) -> Vec3 {
        let [x, y, z] = self.numbers();
        Vec3::new(x, y, z).expect("coordinates")
    }

    fn geom(&mut self) -> Geom {
        let mut tris = kit::Vec::new(Global);
        for _ in 0..self.number() {
            let corners: [(Vec3, [u8; 3]); 3] = std::array::from_fn(|_| (self.point(), std::array::from_fn(|_| self.number())));
            tris.push(Tri { v: corners.map(|(v, _)| v), c: corners.map(|(_, c)| c) }).unwrap();
        }
        Geom::new(tris).unwrap()
    }

    fn pose(&mut self) -> Pose {
        if self.word() == Some("matrix") {
            let a = std::array::from_fn(|_| self.numbers());
            Pose::Matrix(Affine::new(a, self.point()).expect("entries"))
        } else {
            let [scale, h, p, r] = self.numbers();
            Pose::Euler(Euler { scale, h, p, r, t: self.point() })
        }
    }

    /// The list of a picture: its view, and then its joints and items.
    fn list(&mut self, geoms: &HashMap<u16, Geom>) -> DrawList {
        let (eye, [h, p, r]) = (self.point(), self.numbers());
        let (joints, items): (usize, usize) = (self.number(), self.number());
        let mut list = DrawList::new(Global);
        list.reserve(joints.max(items), geoms.values().map(|geom| geom.len()).sum()).unwrap();
        list.clear(&View { eye, h, p, r });
        for _ in 0..joints {
            self.word();
            let (up, pose) = (self.number(), self.pose());
            list.push_joint(up, pose).expect("room");
        }
        for _ in 0..items {
            self.word();
            let id = self.number();
            let geom = list.keep(id, &geoms[&id]).expect("room");
            let (state, place, shift, joint) = (self.number(), self.number(), self.number(), self.number());
            let far = box_of_tris(geoms[&id].as_slice()).map_or(0, |around| squared_distance(&list.eye_box(joint, &around)));
            let tint = u8::try_from(self.number::<i64>()).ok().map(|alpha| Tint { alpha, far });
            list.push_reserved(Item { state, place, shift, joint, geom, tint }).expect("room");
        }
        list.order();
        list
    }
}

// A time of a clock; 2 is the processor time of this process.
unsafe extern "C" {
    fn clock_gettime(clock: i32, time: *mut [i64; 2]) -> i32;
}

fn spent() -> Duration {
    let mut time = [0; 2];
    // SAFETY: the time is two words, as the C library has it on 64-bit machines.
    unsafe { clock_gettime(2, &mut time) };
    Duration::new(time[0] as u64, time[1] as u32)
}

fn main() {
    let words: Vec<String> = std::env::args().collect();
    let text = std::fs::read_to_string(&words[1]).expect("a file of lists");
    let times: usize = words[2].parse().expect("a number of times");
    let mut text = Words(text.split_ascii_whitespace());
    text.word();
    let lens = Lens::new(text.number(), text.number(), text.number(), text.number(), text.number()).expect("a lens");
    let back: [u8; 3] = std::array::from_fn(|_| text.number());
    let mut geoms = HashMap::new();
    let mut raster = Raster::new(Global, &lens).unwrap();
    let mut image = Image::new(Global, lens.w, lens.h).unwrap();
    while let Some(word) = text.word() {
        if word == "geode" {
            geoms.insert(text.number(), text.geom());
            continue;
        }
        let list = text.list(&geoms);
        let mut least = Duration::MAX;
        for _ in 0..times.max(1) {
            let start = spent();
            raster.draw(&OneThread, &list, back, &mut image);
            least = least.min(spent() - start);
        }
        if times > 0 {
            println!("{:.3}", least.as_secs_f64() * 1000.0);
        } else {
            let mut picture = kit::Vec::new(Global);
            append_ppm(&mut picture, &image).unwrap();
            std::io::stdout().write_all(&picture).expect("the output");
        }
    }
}
