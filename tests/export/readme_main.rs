// What tools/transcripts.py and tests/released.sh add after the jobs of README.md, each of which is a
// module: the server of the second job challenges the client of the first, which has no credentials.
fn main() {
    let socket = std::net::UdpSocket::bind("127.0.0.1:0").unwrap();
    let server = socket.local_addr().unwrap();
    std::thread::spawn(move || job1::serve(&socket, [7; 32]).unwrap());
    let error = job0::my_address(server, [7; 32]).unwrap_err();
    println!("{}", error.to_string().split(|c: char| !c.is_ascii_digit()).collect::<String>());
}
