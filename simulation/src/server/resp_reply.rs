/// A reply in the second version of RESP, as a client reads it.
#[derive(Clone, Debug, PartialEq, Eq)]
pub enum RespReply {
    Simple(Vec<u8>),
    Error(Vec<u8>),
    Number(i64),
    Text(Vec<u8>),
    Nothing,
    List(Vec<RespReply>),
}

impl RespReply {
    /// Reads the reply at the front. Returns it with the number of its bytes, or nothing if it isn't whole.
    ///
    /// # Errors
    ///
    /// If the bytes are no reply.
    pub fn read(bytes: &[u8]) -> Result<Option<(RespReply, usize)>, String> {
        let Some(end) = bytes.windows(2).position(|it| it == b"\r\n") else {
            return Ok(None);
        };
        let (line, after) = (&bytes[1..end.max(1)], end + 2);
        let number = || {
            let text = std::str::from_utf8(line).ok();
            let read = text.and_then(|it| it.parse::<i64>().ok());
            read.ok_or_else(|| format!("no number: {:?}", String::from_utf8_lossy(line)))
        };
        Ok(Some(match bytes[0] {
            b'+' => (RespReply::Simple(line.to_vec()), after),
            b'-' => (RespReply::Error(line.to_vec()), after),
            b':' => (RespReply::Number(number()?), after),
            b'$' if number()? < 0 => (RespReply::Nothing, after),
            b'$' => {
                let whole = after + number()? as usize;
                if bytes.len() < whole + 2 {
                    return Ok(None);
                }
                (RespReply::Text(bytes[after..whole].to_vec()), whole + 2)
            }
            b'*' => return RespReply::read_list(bytes, after, number()?),
            other => return Err(format!("no reply begins with {other}")),
        }))
    }

    fn read_list(
        bytes: &[u8],
        mut at: usize,
        count: i64,
    ) -> Result<Option<(RespReply, usize)>, String> {
        let mut items = Vec::new();
        for _ in 0..count {
            let Some((item, length)) = RespReply::read(&bytes[at..])? else {
                return Ok(None);
            };
            items.push(item);
            at += length;
        }
        Ok(Some((RespReply::List(items), at)))
    }
}

#[cfg(test)]
mod tests {
    use super::*;

    #[test]
    fn replies_are_read_once_they_are_whole() {
        let bytes = b"*3\r\n$2\r\nab\r\n:-4\r\n$-1\r\n-ERR no\r\n+OK\r\n";
        let list = RespReply::List(vec![
            RespReply::Text(b"ab".to_vec()),
            RespReply::Number(-4),
            RespReply::Nothing,
        ]);
        assert_eq!(RespReply::read(bytes), Ok(Some((list, 22))));
        (0..22).for_each(|it| assert_eq!(RespReply::read(&bytes[..it]), Ok(None)));
        let error = RespReply::Error(b"ERR no".to_vec());
        assert_eq!(RespReply::read(&bytes[22..]), Ok(Some((error, 9))));
        let simple = RespReply::Simple(b"OK".to_vec());
        assert_eq!(RespReply::read(&bytes[31..]), Ok(Some((simple, 5))));
        assert!(RespReply::read(b"GET\r\n").is_err());
    }
}
