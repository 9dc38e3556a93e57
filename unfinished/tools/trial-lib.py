#!/usr/bin/env python3
"""An unproved static library of the exported functions, in seconds, to measure a shape of the code before it is proved.

    trial-lib OUT [CRATE..]     in the repository: builds OUT/libcapi.a from crates/*/src as they stand (contracts are
                                left out), with the functions that CRATE.. export (default: every crate that exports).
                                OUT/lib.opt.ll and OUT/lib.s show what LLVM made of them.

The instruction counts (valgrind --tool=callgrind) are those of the proved library. To see why a function is not joined
to its caller: clang -O3 -Rpass=inline -Rpass-missed=inline -c -x ir OUT/lib.ll -o /dev/null. It proves nothing, and a
program that names the kit's `io` cannot be built beside a crate called `number`.
"""
import os, re, shutil, subprocess, sys

HOME = os.environ.get('RATTLE_HOME', '/opt/rattle')
KIT = HOME + '/on/x86_64'
WORD = {'usize': 'i64', 'u64': 'i64', 'i64': 'i64', 'u32': 'i32', 'i32': 'i32', 'u16': 'i16', 'i16': 'i16', 'u8': 'i8', 'i8': 'i8', 'bool': 'i8'}
SIZE = {'i64': 8, 'i32': 4, 'i16': 2, 'i8': 1}
FLAGS = ('--target=x86_64-unknown-linux-gnu -march=x86-64 -ffunction-sections -fdata-sections -mllvm -trap-unreachable '
         '-mllvm -no-trap-after-noreturn --no-default-config -no-canonical-prefixes -fintegrated-cc1 -fno-crash-diagnostics '
         '-fPIE -O3 -Xclang -fmerge-functions -mllvm -mergefunc-use-aliases').split()


def crates():
    deps = {}
    for line in open('crates.txt'):
        line = line.split('#')[0].strip()
        if ':' in line:
            name, rest = line.split(':', 1)
            deps[name.strip()] = rest.split()
    return deps


def strip(text):
    return '\n'.join(l for l in text.split('\n') if not re.match(r'\s*(ghost use|requires\b|ensures\b)', l))


def exported(text):
    for m in re.finditer(r'pub extern "C" fn (\w+)\s*\(([^)]*)\)\s*(?:->\s*([\w:]+))?', text):
        args = [a.split(':', 1)[1].strip() for a in m.group(2).split(',') if ':' in a]
        yield m.group(1), args, (m.group(3) or '').split('::')[-1]


def layout(name, structs):
    at, most = 0, 1
    for field in structs[name]:
        n = SIZE[WORD[field]]
        most = max(most, n)
        at = (at + n - 1) // n * n + n
    return (at + most - 1) // most * most


def main():
    if len(sys.argv) < 2:
        sys.exit(__doc__)
    out = os.path.abspath(sys.argv[1])
    deps = crates()
    src = os.path.join(out, 'crates')
    shutil.rmtree(src, ignore_errors=True)
    structs, exports = {}, []
    wanted = sys.argv[2:]
    for name in deps:
        folder = os.path.join('crates', name, 'src')
        for base, _, files in os.walk(folder):
            for f in files:
                text = open(os.path.join(base, f)).read()
                to = os.path.normpath(os.path.join(src, name, 'src', os.path.relpath(base, folder)))
                os.makedirs(to, exist_ok=True)
                open(os.path.join(to, f), 'w').write(strip(text))
                plain = re.sub(r'//[^\n]*', '', text).replace('held::STAND_NUMBERS', '').replace('; STAND_NUMBERS', '; 14').replace('; LABEL_LIMIT', '; 4096').replace('; BLOCK', '; 64').replace('; DIGEST', '; 32').replace('; RUNNING_NUMBERS', '; 9')
                for m in re.finditer(r'struct (\w+)\s*\{([^}]*)\}', plain):
                    structs[m.group(1)] = re.findall(r':\s*(\w+)\s*(?:,|$)', m.group(2).strip())
                if not wanted or name in wanted:
                    exports += [(name, *e) for e in exported(plain)]
    if not exports:
        sys.exit('no exported function found')
    need = []

    def visit(n):
        if n in need or n not in deps:
            return
        for d in deps[n]:
            visit(d)
        need.append(n)
    for e in exports:
        visit(e[0])
    # a program that calls each of them, so that all are compiled
    lines = ['fn main() {']
    for i, (crate, fn, args, ret) in enumerate(exports):
        call = []
        for k, a in enumerate(args):
            m = re.match(r"&(?:'\w+ )?(mut )?\[(\w+)(?:; (\d+))?\]", a)
            if m:
                lines.append('    let mut a%d_%d = [0%s; %s];' % (i, k, '.0f32' if m.group(2) == 'f32' else m.group(2), m.group(3) or '64'))
                call.append('&%sa%d_%d' % ('mut ' if m.group(1) else '', i, k))
            else:
                call.append('0')
        lines.append('    let r%d = %s::%s(%s);' % (i, crate, fn, ', '.join(call)))
    lines.append('}')
    shim = os.path.join(out, 'shim/src/main.rt')
    os.makedirs(os.path.dirname(shim), exist_ok=True)
    open(shim, 'w').write('\n'.join(lines) + '\n')
    # a toolchain whose clang keeps the module
    tools = os.path.join(out, 'toolchain')
    shutil.rmtree(tools, ignore_errors=True)
    os.makedirs(os.path.join(tools, 'bin'))
    for entry in os.listdir(KIT + '/toolchain'):
        if entry != 'bin':
            os.symlink(os.path.join(KIT, 'toolchain', entry), os.path.join(tools, entry))
    for entry in os.listdir(KIT + '/toolchain/bin'):
        if entry != 'clang':
            os.symlink(os.path.join(KIT, 'toolchain/bin', entry), os.path.join(tools, 'bin', entry))
    kept = os.path.join(out, 'kept.bc')
    if os.path.exists(kept):
        os.remove(kept)
    clang = KIT + '/toolchain/bin/clang'
    with open(os.path.join(tools, 'bin/clang'), 'w') as f:
        f.write('#!/bin/bash\nfor a in "$@"; do case "$a" in *.bc) [ -f "$a" ] && [ ! -e %s ] && cp "$a" %s ;; esac; done\nexec %s "$@"\n' % (kept, kept, clang))
    os.chmod(os.path.join(tools, 'bin/clang'), 0o755)
    command = [KIT + '/bin/rattle-cases', '--toolchain', tools, shim, '--crate-name', 'shim', '--lib', 'std=%s/libs/std/src/lib.rt' % HOME]
    for n in need:
        command += ['--lib', '%s=%s/%s/src/lib.rt' % (n, src, n)]
    p = subprocess.run(command, capture_output=True, text=True)
    if not os.path.exists(kept):
        sys.exit((p.stdout + p.stderr)[-4000:])
    ll = os.path.join(out, 'kept.ll')
    subprocess.check_call([clang, '-S', '-emit-llvm', '-Xclang', '-disable-llvm-passes', '-x', 'ir', kept, '-o', ll])
    text = open(ll).read()
    text = re.sub(r'define internal void @"shim::main"\(\) #0 \{.*?\n\}\n', '', text, flags=re.S)
    text = re.sub(r'define i32 @main\(\) #0 \{.*?\n\}\n', '', text, flags=re.S)
    shims = ''
    for crate, fn, args, ret in exports:
        params, body, call = [], '', []
        for i, a in enumerate(args):
            if re.match(r"&(?:'\w+ )?(mut )?\[\w+\]", a):
                params.append('ptr %%p%d, i64 %%n%d' % (i, i))
                body += ('  %%s%d = alloca [16 x i8], align 8\n  store ptr %%p%d, ptr %%s%d, align 8\n'
                         '  %%q%d = getelementptr i8, ptr %%s%d, i64 8\n  store i64 %%n%d, ptr %%q%d, align 8\n') % ((i,) * 7)
                call.append('ptr %%s%d' % i)
            elif a.startswith('&'):
                params.append('ptr %%p%d' % i)
                call.append('ptr %%p%d' % i)
            else:
                params.append('%s %%p%d' % (WORD[a], i))
                call.append('%s %%p%d' % (WORD[a], i))
        if ret in structs:
            n = layout(ret, structs)
            shims += 'define void @%s(ptr noalias sret([%d x i8]) %%ret, %s) #0 {\nstart:\n%s  call void @"%s::%s"(ptr %%ret, %s)\n  ret void\n}\n' % (
                fn, n, ', '.join(params), body, crate, fn, ', '.join(call))
        else:
            print('left out (its answer is no struct):', fn)
    text = text.replace('attributes #0 =', shims + 'attributes #0 =', 1)
    lib = os.path.join(out, 'lib')
    open(lib + '.ll', 'w').write(text)
    for extra, to in ((['-c'], '.o'), (['-S'], '.s'), (['-S', '-emit-llvm'], '.opt.ll')):
        subprocess.check_call([clang] + FLAGS + extra + ['-x', 'ir', lib + '.ll', '-o', lib + to])
    archive = os.path.join(out, 'libcapi.a')
    if os.path.exists(archive):
        os.remove(archive)
    subprocess.check_call([KIT + '/toolchain/bin/llvm-ar', 'rcs', archive, lib + '.o'])
    print(archive, 'has', ', '.join(e[1] for e in exports if e[3] in structs))


main()
