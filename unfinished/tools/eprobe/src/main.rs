use std::hint::black_box; use std::time::Instant;
#[repr(C)] #[derive(Clone,Copy,Debug)] pub struct Raw([u64;8]);
extern "C" { fn cockledrift_edit(f:*const u8,n:usize,a:usize,k:usize,r:*const u8,m:usize,o:*mut u8,room:usize)->Raw; fn cockledrift_read(f:*const u8,n:usize,o:*mut u8,m:usize)->Raw; fn cockledrift_convert(f:*const u8,n:usize,s:*mut u8,m:usize,o:*mut u8,k:usize)->Raw;}
const STATION:[u8;17]=[0,15,2,0,0,0,0,0,0,0,0,0,0,0,0,0,b'a'];
#[inline(never)] pub fn edits(f:&[u8],at:usize,o:&mut [u8])->Raw { unsafe{cockledrift_edit(f.as_ptr(),f.len(),at,10,STATION.as_ptr(),17,o.as_mut_ptr(),o.len())} }
#[inline(never)] pub fn reads(f:&[u8],o:&mut [u8])->Raw { unsafe{cockledrift_read(f.as_ptr(),f.len(),o.as_mut_ptr(),o.len())} }
fn main(){ let a:Vec<String>=std::env::args().collect(); let file=std::fs::read(&a[1]).unwrap(); let runs:usize=a[2].parse().unwrap();
 let plain::Answer::Refused{place,..}=plain::read(&file,&mut []) else {panic!()};
 let mut s=vec![0x55u8;place]; let plain::Answer::Done{records,..}=plain::read(&file,&mut s) else {panic!()};
 let mut house=vec![0u8;2*file.len()+100]; let w=unsafe{cockledrift_convert(file.as_ptr(),file.len(),s.as_mut_ptr(),s.len(),house.as_mut_ptr(),house.len())}; let n=w.0[1] as usize; let n= if n>0&&n<=house.len() {n} else {w.0[2] as usize}; house.truncate(n);
 let mut o=vec![0u8;n+1000];
 if runs==1 { println!("{records} {:?} {:?} {:?}", w, edits(&house,records/2,&mut o), reads(&house,&mut s)); return; }
 let (mut be,mut br)=(f64::MAX,f64::MAX); for _ in 0..runs { let b=Instant::now(); black_box(edits(&house,records/2,&mut o)); be=be.min(b.elapsed().as_nanos() as f64/records as f64); let b=Instant::now(); black_box(reads(&house,&mut s)); br=br.min(b.elapsed().as_nanos() as f64/records as f64); }
 println!("{} edit {be:.1} read {br:.1} ns a record: {:.2}",a[1],be/br); }
