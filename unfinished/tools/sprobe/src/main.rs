use generate::coder::{Coder, Form};
use std::hint::black_box; use std::time::Instant;
#[repr(C)] #[derive(Clone,Copy,Debug)] pub struct Raw([u64;8]);
extern "C" { fn cockledrift_read_strict(f:*const u8,n:usize,s:*mut u8,m:usize,r:*mut u8,k:usize,seed:u64)->Raw; }
#[inline(never)] pub fn stricts(f:&[u8],s:&mut [u8],r:&mut [u8])->Raw { unsafe{cockledrift_read_strict(f.as_ptr(),f.len(),s.as_mut_ptr(),s.len(),r.as_mut_ptr(),r.len(),0x5eed_0f17_2a83_c10d)} }
fn digits(number: usize) -> [u8; 4] { [15, 10, 5, 0].map(|shift| b'0' + (number >> shift & 31) as u8) }
fn stations(count: usize) -> Vec<u8> {
    let mut coder = Coder::short(8);
    coder.station(0, (0, b"cave.series.passage.0000", Form::Least), [0; 3]);
    for number in 1..count { let name = digits(number); let kept = digits(number - 1).iter().zip(&name).take_while(|(a, b)| a == b).count();
        coder.station(0, (4 - kept, &name[kept..], Form::Least), [number as i32; 3]); }
    coder.close(); coder.bytes }
fn main(){ let a:Vec<String>=std::env::args().collect();
 if a[1]=="make" { std::fs::write(&a[2],stations(20000)).unwrap(); std::fs::write(&a[3],stations(600000)).unwrap(); return; }
 let file=std::fs::read(&a[1]).unwrap(); let runs:usize=a[2].parse().unwrap();
 let plain::Answer::Refused{place,..}=plain::read(&file,&mut []) else {panic!()};
 let mut s=vec![0x55u8;place]; let plain::Answer::Done{records,..}=plain::read(&file,&mut s) else {panic!()};
 let k=place+16*records+10; let mut r=vec![0x5au8;k]; let mut t=vec![0x55u8;place];
 if runs==1 { black_box(stricts(&file,&mut t,&mut r)); println!("{records} {}", s==t); return; }
 let mut best=f64::MAX; for _ in 0..runs { r.fill(0x5a); t.fill(0x55); let b=Instant::now(); black_box(stricts(&file,&mut t,&mut r)); let e=b.elapsed().as_nanos() as f64/records as f64; if e<best{best=e;} }
 println!("{} strict {:.1} ns a record {}",a[1].rsplit('/').next().unwrap(),best,s==t); }
