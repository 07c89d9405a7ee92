use crate::error::Error;

/// Copies a text by this call, which tells its length, and refuses where the room is too short. Most texts are short: they are copied at once.
pub(crate) fn text(mut copy: impl FnMut(&mut [u8], &mut usize) -> u32) -> Result<Vec<u8>, Error> {
    let (mut length, mut short) = (0, [0; 256]);
    let first = copy(&mut short, &mut length);
    if length > short.len() {
        let mut bytes = vec![0; length];
        Error::check(copy(&mut bytes, &mut length))?;
        Ok(bytes)
    } else {
        Error::check(first)?;
        Ok(short[..length].to_vec())
    }
}

/// So many things, each by its place, in a list that has room for no more.
pub(crate) fn each<T>(
    count: usize,
    thing: impl Fn(usize) -> Result<T, Error>,
) -> Result<Vec<T>, Error> {
    let mut things = Vec::with_capacity(count);
    for at in 0..count {
        things.push(thing(at)?);
    }
    Ok(things)
}

/// The root digest that this call copies, or None where there is no key.
pub(crate) fn digest(copy: impl FnOnce(*mut u8, usize, &mut usize) -> u32) -> Option<[u8; 32]> {
    let (mut digest, mut length) = ([0; 32], 0);
    let told = copy(digest.as_mut_ptr(), digest.len(), &mut length);
    debug_assert_eq!(told, 0);
    (length == 32).then_some(digest)
}
