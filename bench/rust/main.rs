fn main() {
    xarxa::bench::main()
}
