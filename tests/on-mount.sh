# What programs do on a mount and beside it (tests/mount-programs.py), each in a folder of its own: they print and leave the
# same. ROWS is a number.
## cp
mkdir a a/b; echo one > a/x; seq 2000 > a/b/y; chmod 640 a/x
cp -a a c; cp -r a d; cp a/b/y a/b/z; cat c/b/y
## mv
mkdir a b; echo one > a/x; mv a/x b/y; echo two > a/x; mv a/x b/y
mv b c; cat c/y; mv c/y c/z; ls c
## tar
mkdir a; for i in $(seq 30); do seq $i > a/f$i; done; chmod 600 a/f3
tar cf t.tar a; mkdir b; tar xf t.tar -C b; tar cf - b | (mkdir c; cd c; tar xf -)
diff -r a c/b/a && rm t.tar; ls -l c/b/a | tail -n +2 | cut -c1-10
## sed
seq 50 > x; sed -i s/1/one/ x; sed -i.old /one/d x; cat x x.old
## vim
printf 'b\na\n' > x; vim.tiny -u NONE -es -c '%sort' -c 's/a/A/' -c wq x; cat x; ls -A
## git
export GIT_CONFIG_GLOBAL=/dev/null GIT_AUTHOR_DATE='1000000000 +0000'
export GIT_COMMITTER_DATE='1000000000 +0000'; git init -q -b main r; cd r
git config user.name a; git config user.email a@b; git config gc.auto 0; git config core.fileMode true
for i in 1 2 3 4; do seq $((i * 100)) > f$i; git add .; git commit -q -m c$i; done
git checkout -q -b other HEAD~2; echo x > g; git add g; git commit -q -m o; git merge -q -m m main
git fsck --strict; git log --format=%H%s; cd ..; git clone -q r s; git -C s log --format=%H
git -C r gc -q; git -C r fsck; cat s/f4
## sqlite3
{ echo 'create table t(a, b);'; for i in $(seq ROWS); do
if [ $((i % 10)) = 1 ]; then echo 'begin;'; fi; echo "insert into t values($i, 'row $i');"
if [ $((i % 10)) = 0 ]; then echo 'commit;'; fi; done; } > in; sqlite3 x.db < in
sqlite3 x.db 'pragma integrity_check; select count(*), sum(a), min(b) from t; update t set b = a where a > 500;
delete from t where a < 10; select count(*) from t; vacuum; pragma integrity_check;'
sqlite3 x.db .dump | cksum; rm x.db
## gcc
printf '#include <stdio.h>\nint main(void) { printf("hi %%d\\n", 6 * 7); return 0; }\n' > x.c
gcc -O1 -s -o x x.c && ./x; gcc -c x.c && gcc -s -o y x.o && ./y; rm x y x.o
## find
mkdir -p a/b/c; touch a/1 a/b/2 a/b/c/3; chmod 600 a/1; find . | sort; find . -type f -perm 600
find a -name '[23]' -delete; find . -type d | sort; rm -r a/b; find .
## diff
mkdir a; seq 9 > a/x; cp -r a b; echo 10 >> b/x
diff -r a b || diff -u a/x b/x > p || patch -s a/x p; rm p; cat a/x; diff -r a b
## getfacl
mkdir -p a/b; echo x > a/f; setfacl -m u:1234:rw,g:4321:r a/f; setfacl -d -m u:1234:rwx a
echo y > a/b/n; echo z > a/g; getfacl -nR a > l; setfacl -R -b a; getfacl -n a a/b a/f a/g; setfacl --restore=l
getfacl -n a a/b a/b/n a/f a/g; cat a/f a/g; rm l
## append
for i in $(seq 40); do echo $i >> x; done; (for i in $(seq 20); do echo a$i >> y; done) &
(for i in $(seq 20); do echo b$i >> y; done); wait; cat x; sort y; rm y
