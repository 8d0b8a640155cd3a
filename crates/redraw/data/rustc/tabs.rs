fn main() {
	let total: i64 = 4;
	if	total	==	"4" {
		println!("{total}");
	}
}
