use std::hint::black_box; use std::time::Instant;
#[repr(C)] #[derive(Clone,Copy,Debug)] pub struct Raw([u64;8]);
extern "C" { fn cockledrift_open(f:*const u8,n:usize,st:*mut u64)->Raw; fn cockledrift_step(f:*const u8,n:usize,st:*mut u64,l:*mut u8,o:*mut u8,m:usize)->Raw; fn cockledrift_read(f:*const u8,n:usize,o:*mut u8,m:usize)->Raw; }
#[inline(never)] pub fn steps(f:&[u8],st:&mut [u64],l:&mut [u8],o:&mut [u8])->usize { let mut n=0; unsafe{ cockledrift_open(f.as_ptr(),f.len(),st.as_mut_ptr()); loop { let r=cockledrift_step(f.as_ptr(),f.len(),st.as_mut_ptr(),l.as_mut_ptr(),o.as_mut_ptr(),o.len()); n+=1; if black_box(r.0[0])>=3 || n>f.len() {return n;} } } }
#[inline(never)] pub fn reads(f:&[u8],o:&mut [u8])->Raw { unsafe{cockledrift_read(f.as_ptr(),f.len(),o.as_mut_ptr(),o.len())} }
fn main(){ let a:Vec<String>=std::env::args().collect(); let file=std::fs::read(&a[1]).unwrap(); let runs:usize=a[2].parse().unwrap();
 let plain::Answer::Refused{place,..}=plain::read(&file,&mut []) else {panic!()};
 let mut s=vec![0x55u8;place]; let mut st=vec![0u64;64]; let mut l=vec![0u8;4096]; let mut o=vec![0u8;8192];
 let plain::Answer::Done{records,..}=plain::read(&file,&mut s) else {panic!()};
 if runs==1 { println!("{} {}", steps(&file,&mut st,&mut l,&mut o), records); return; }
 let (mut be,mut br)=(f64::MAX,f64::MAX); let mut n=0; for _ in 0..runs { let b=Instant::now(); n=black_box(steps(&file,&mut st,&mut l,&mut o)); be=be.min(b.elapsed().as_nanos() as f64); let b=Instant::now(); black_box(reads(&file,&mut s)); br=br.min(b.elapsed().as_nanos() as f64); }
 println!("{} steps {n} {:.1} ns a step, read {:.1} ns a record: {:.2}",a[1],be/n as f64,br/records as f64,be/br); }
