use std::hint::black_box; use std::time::Instant;
#[repr(C)] #[derive(Clone,Copy,Debug)] pub struct Raw([u64;8]);
extern "C" { fn cockledrift_read(f:*const u8,n:usize,s:*mut u8,m:usize)->Raw; fn own_cockledrift_read(f:*const u8,n:usize,s:*mut u8,m:usize)->Raw; }
fn main(){ let a:Vec<String>=std::env::args().collect(); let turns:usize=a[1].parse().unwrap();
 for f in &a[2..] { let file=std::fs::read(f).unwrap();
  let plain::Answer::Refused{place,..}=plain::read(&file,&mut []) else {panic!()};
  let mut t=vec![0x55u8;place]; let n=if file.len()<1_000_000 {200} else {1};
  let mut run=|k:usize|{ t.fill(0x55); let b=Instant::now(); for _ in 0..n { unsafe { match k {0=>{black_box(cockledrift_read(file.as_ptr(),file.len(),t.as_mut_ptr(),t.len()));},1=>{black_box(own_cockledrift_read(file.as_ptr(),file.len(),t.as_mut_ptr(),t.len()));},_=>{black_box(plain::read(&file,&mut t));}} } } b.elapsed().as_nanos() as f64/n as f64 };
  let (mut r,mut p,mut q,mut best)=(vec![],vec![],vec![],[f64::MAX;3]);
  for i in 0..turns { let mut v=[0f64;3]; for j in 0..3 { let k=(i+j)%3; v[k]=run(k); if v[k]<best[k]{best[k]=v[k];} } r.push(v[0]/v[1]); p.push(v[0]/v[2]); q.push(v[1]/v[2]); }
  let med=|v:&mut Vec<f64>|{v.sort_by(|a,b|a.total_cmp(b)); v[v.len()/2]};
  println!("{:12} shared/own median {:.3} least {:.3}   shared/plain {:.2} own/plain {:.2}",f.rsplit('/').next().unwrap(),med(&mut r),best[0]/best[1],med(&mut p),med(&mut q)); } }
