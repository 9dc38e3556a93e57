fn main(){ println!("cargo::rustc-link-search=native={}/duolib", std::env::var("W").unwrap()); println!("cargo::rustc-link-lib=static=fin"); println!("cargo::rustc-link-lib=static=own"); }
