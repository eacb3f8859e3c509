//! A client's WebSocket (RFC 6455) in OCPP 1.6: whole texts, one write for each.

use std::io::{Error, ErrorKind, Read, Result, Write};
use std::net::TcpStream;
use std::time::Duration;

/// A client waits so long for a text before it gives up.
const PATIENCE: Duration = Duration::from_secs(60);

const TEXT: u8 = 1;
const CLOSE: u8 = 8;

pub struct Socket {
    stream: TcpStream,
    /// What was read and not yet handed on: `input[begin..]`.
    input: Vec<u8>,
    begin: usize,
    output: Vec<u8>,
    mask: u32,
}

fn fault(why: String) -> Error {
    Error::new(ErrorKind::InvalidData, why)
}

impl Socket {
    pub fn open(address: &str, path: &str) -> Result<Socket> {
        let stream = TcpStream::connect(address)?;
        stream.set_nodelay(true)?;
        stream.set_read_timeout(Some(PATIENCE))?;
        let mut socket = Socket {
            stream,
            input: Vec::new(),
            begin: 0,
            output: Vec::new(),
            mask: path.len() as u32,
        };
        let request = format!(
            "GET {path} HTTP/1.1\r\nHost: {address}\r\nUpgrade: websocket\r\nConnection: Upgrade\r\n\
             Sec-WebSocket-Version: 13\r\nSec-WebSocket-Key: x3JJHMbDL1EzLkh9GBhXDw==\r\nSec-WebSocket-Protocol: ocpp1.6\r\n\r\n"
        );
        socket.stream.write_all(request.as_bytes())?;
        socket.read_response()?;
        Ok(socket)
    }

    fn read_response(&mut self) -> Result<()> {
        loop {
            if let Some(place) = self.input.windows(4).position(|end| end == b"\r\n\r\n") {
                let head = String::from_utf8_lossy(&self.input[..place]).to_lowercase();
                self.begin = place + 4;
                if head.starts_with("http/1.1 101") && head.contains("sec-websocket-protocol: ocpp1.6") {
                    return Ok(());
                }
                return Err(fault(format!("no handshake: {head}")));
            }
            self.fill()?;
        }
    }

    /// Reads more into `input`.
    fn fill(&mut self) -> Result<()> {
        self.input.drain(..self.begin);
        self.begin = 0;
        let length = self.input.len();
        self.input.resize(length + 65_536, 0);
        let read = self.stream.read(&mut self.input[length..]);
        self.input.truncate(length + *read.as_ref().unwrap_or(&0));
        match read {
            Ok(0) => Err(ErrorKind::UnexpectedEof.into()),
            other => other.map(|_| ()),
        }
    }

    fn send_frame(&mut self, opcode: u8, payload: &[u8]) -> Result<()> {
        self.output.clear();
        self.output.push(0x80 | opcode);
        match payload.len() {
            length @ 0..=125 => self.output.push(0x80 | length as u8),
            length @ 126..=65_535 => {
                self.output.push(0xFE);
                self.output.extend((length as u16).to_be_bytes());
            }
            length => {
                self.output.push(0xFF);
                self.output.extend((length as u64).to_be_bytes());
            }
        }
        self.mask = self.mask.wrapping_mul(1_664_525).wrapping_add(1_013_904_223);
        let mask = self.mask.to_be_bytes();
        self.output.extend(mask);
        self.output.extend(payload.iter().zip(mask.iter().cycle()).map(|(byte, mask)| byte ^ mask));
        self.stream.write_all(&self.output)
    }

    pub fn send(&mut self, text: &str) -> Result<()> {
        self.send_frame(TEXT, text.as_bytes())
    }

    /// The kind and the payload of the next frame, by its place in `input`.
    fn next_frame(&mut self) -> Result<(u8, std::ops::Range<usize>)> {
        loop {
            let seen = &self.input[self.begin..];
            let sizes = match seen {
                [_, 126, high, low, ..] => Some((4, u16::from_be_bytes([*high, *low]) as usize)),
                [_, 127, length @ ..] => length.first_chunk().map(|length| (10, u64::from_be_bytes(*length) as usize)),
                [_, length, ..] if *length < 126 => Some((2, *length as usize)),
                [_, length, ..] if *length > 127 => return Err(fault("a masked frame".to_string())),
                _ => None,
            };
            if let Some((head, length)) = sizes.filter(|(head, length)| head + length <= seen.len()) {
                let (first, payload) = (seen[0], self.begin + head..self.begin + head + length);
                self.begin = payload.end;
                return Ok((first, payload));
            }
            self.fill()?;
        }
    }

    /// The next text.
    pub fn receive(&mut self) -> Result<&str> {
        let (first, payload) = self.next_frame()?;
        if first != 0x80 | TEXT {
            return Err(fault(format!("a frame that begins with {first:#x}")));
        }
        std::str::from_utf8(&self.input[payload]).map_err(|_| fault("no UTF-8".to_string()))
    }

    /// Closes, and waits for the server's answer.
    pub fn close(mut self) -> Result<()> {
        self.send_frame(CLOSE, &1_000_u16.to_be_bytes())?;
        loop {
            let (first, _) = self.next_frame()?;
            if first == 0x80 | CLOSE {
                return Ok(());
            }
        }
    }
}
