mod made;
use std::hint::black_box; use std::time::Instant;
#[repr(C)] #[derive(Clone,Copy,Debug,PartialEq)] pub struct Answer { pub refused:u8, pub number:u8, pub version:u8, pub place:u64, pub bytes:u64, pub records:u64 }
#[repr(C)] #[derive(Clone,Copy,Debug)] pub struct Raw([u64;8]);
extern "C" { fn cockledrift_read(f:*const u8,n:usize,s:*mut u8,m:usize)->Raw; 
 fn cockledrift_next(f:*const u8,n:usize,st:*mut u64,l:*mut u8,o:*mut u8,m:usize)->Raw; 
 fn cockledrift_open(f:*const u8,n:usize,st:*mut u64)->Raw; }
#[inline(never)] pub fn ours(f:&[u8],s:&mut [u8])->Raw { unsafe{cockledrift_read(f.as_ptr(),f.len(),s.as_mut_ptr(),s.len())} }
#[inline(never)] pub fn plains(f:&[u8],s:&mut [u8])->plain::Answer { plain::read(f,s) }
#[inline(never)] pub fn seconds(f:&[u8],s:&mut [u8])->second::Answer { second::read(f,s) }
#[inline(never)] pub fn firsts(f:&[u8])->Raw { ours(f,&mut []) }
#[inline(never)] pub fn pfirsts(f:&[u8])->plain::Answer { plains(f,&mut []) }
fn main(){
 let a:Vec<String>=std::env::args().collect();
 if a[1]=="make" { let n:usize=a[2].parse().unwrap(); let d=&a[3];
  for (w,m) in [("v8",made::Made::Legs(8)),("v3",made::Made::Legs(3)),("v7",made::Made::Legs(7)),("turn",made::Made::Turn),("cave8",made::Made::Cave(8)),("cave7",made::Made::Cave(7)),("cave3",made::Made::Cave(3))] { std::fs::write(format!("{d}/{w}.3d"),m.file(n)).unwrap(); } return; }
 let runs:usize=a[2].parse().unwrap();
 let file=std::fs::read(&a[1]).unwrap();
 let plain::Answer::Refused{number:11,place}=plain::read(&file,&mut []) else {panic!()};
 let mut s=vec![0x55u8;place]; let mut t=vec![0x55u8;place];
 let plain::Answer::Done{records,..}=plain::read(&file,&mut s) else {panic!()};
 let _ = ours(&file,&mut t); black_box(firsts(&file)); black_box(pfirsts(&file));
 assert!(s==t,"differs");
 let mut best=[f64::MAX;3]; let mut all=[vec![],vec![],vec![]];
 for _ in 0..runs { for k in 0..3 { t.fill(0x55); let b=Instant::now(); match k {0=>{black_box(ours(&file,&mut t));},1=>{black_box(plains(&file,&mut t));},_=>{black_box(seconds(&file,&mut t));}} let e=b.elapsed().as_nanos() as f64/records as f64; if e<best[k]{best[k]=e;} all[k].push(e);} }
 if runs>1 { let med=|k:usize|{let mut v=all[k].clone(); v.sort_by(|a,b|a.total_cmp(b)); v[v.len()/2]};
 println!("{:30} records {records} ours {:.1} plain {:.1} second {:.1} ours/plain {:.2} (med {:.2}) ours/second {:.2}",a[1].rsplit('/').next().unwrap(),best[0],best[1],best[2],best[0]/best[1],med(0)/med(1),best[0]/best[2]); } else { println!("{records}"); }
}
